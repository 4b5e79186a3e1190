//! Takes the text of the original functions from the folder of its sources
//! and lays it into OUT_DIR, where `src/original.rs` includes it. The text is
//! not changed and not kept in this repository.
//!
//! Without that folder the rest still builds, and the programs say that the
//! original is not there.

use std::path::{Path, PathBuf};
use std::{env, fs};

/// Where the sources are, unless ESCARPIM_RUST_SRC says otherwise.
const USUAL_FOLDER: &str = "../../shared/docs/src";

/// File, and the first words of each item taken from it; none: all of it.
const TAKEN: [(&str, &[&str]); 3] = [
    (
        "chunk.rs",
        &[
            "pub(super) struct Chunk ",
            "fn toposort_real_modules<",
            "fn cycles_for(",
            "fn toposort_real_module_ids<",
        ],
    ),
    ("graph.rs", &[]),
    (
        "stmt.rs",
        &[
            "pub(super) fn sort_stmts(",
            "fn is_injected_module_item(",
            "fn iter<",
        ],
    ),
];

fn main() {
    println!("cargo:rerun-if-changed=build.rs");
    println!("cargo:rerun-if-env-changed=ESCARPIM_RUST_SRC");
    println!("cargo:rustc-check-cfg=cfg(has_original)");
    let folder = sort_folder();
    println!("cargo:rerun-if-changed={}", folder.display());
    if !folder.is_dir() {
        return;
    }
    let out = PathBuf::from(env::var_os("OUT_DIR").expect("cargo sets OUT_DIR"));
    for (name, starts) in TAKEN {
        let path = folder.join(name);
        println!("cargo:rerun-if-changed={}", path.display());
        let text =
            fs::read_to_string(&path).unwrap_or_else(|error| panic!("{}: {error}", path.display()));
        let taken = match starts {
            [] => text,
            _ => starts.iter().map(|s| item(name, &text, s)).collect(),
        };
        fs::write(out.join(name), taken).expect("OUT_DIR can be written");
    }
    println!("cargo:rustc-cfg=has_original");
}

/// The folder src/modules/sort of the sources.
fn sort_folder() -> PathBuf {
    let here = PathBuf::from(env::var_os("CARGO_MANIFEST_DIR").expect("cargo sets it"));
    let sources = match env::var_os("ESCARPIM_RUST_SRC") {
        Some(given) => PathBuf::from(given),
        None => here.join(Path::new(USUAL_FOLDER)),
    };
    sources.join("src/modules/sort")
}

/// The one item that starts with these words at the beginning of a line, with
/// its comment and attributes, up to the first line that is a closing brace
/// alone.
fn item(name: &str, text: &str, start: &str) -> String {
    let lines: Vec<&str> = text.lines().collect();
    let found: Vec<usize> = (0..lines.len())
        .filter(|&i| lines[i].starts_with(start))
        .collect();
    let [mut first] = found[..] else {
        panic!("{name}: `{start}` stands there {} times", found.len());
    };
    let length = lines[first..].iter().position(|line| *line == "}");
    let last = first + length.unwrap_or_else(|| panic!("{name}: `{start}` has no end"));
    while first > 0 && (lines[first - 1].starts_with("///") || lines[first - 1].starts_with("#[")) {
        first -= 1;
    }
    let mut taken = lines[first..=last].join("\n");
    taken.push_str("\n\n");
    taken
}
