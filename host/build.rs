//! Links the archive of the proved sorter, which ESCARPIM_ARCHIVE names.

use std::path::{Path, PathBuf};
use std::{env, fs};

/// Where `.ci/archive` leaves it, from this folder.
const USUAL_ARCHIVE: &str = "../target/staticlib/libsort.a";

fn main() {
    println!("cargo::rerun-if-changed=build.rs");
    println!("cargo::rerun-if-env-changed=ESCARPIM_ARCHIVE");
    let archive = archive();
    println!("cargo::rerun-if-changed={}", archive.display());
    if env::var("CARGO_CFG_TARGET_ARCH").as_deref() != Ok("x86_64") {
        println!("cargo::error=The archive is for x86-64 alone.");
        return;
    }
    if !archive.is_file() {
        println!(
            "cargo::error=The archive of the sorter is missing: {} is not there. \
             `.ci/archive`, in the folder of crates.txt, makes it \
             (target/staticlib/libsort.a); ESCARPIM_ARCHIVE names another place.",
            archive.display()
        );
        return;
    }
    // A copy under a name of its own: the archive may be called anything.
    let out = PathBuf::from(env::var_os("OUT_DIR").expect("cargo sets OUT_DIR"));
    if let Err(error) = fs::copy(&archive, out.join("libescarpim_sort.a")) {
        println!("cargo::error={}: {error}", archive.display());
        return;
    }
    println!("cargo::rustc-link-search=native={}", out.display());
    println!("cargo::rustc-link-lib=static=escarpim_sort");
}

fn archive() -> PathBuf {
    if let Some(given) = env::var_os("ESCARPIM_ARCHIVE") {
        return PathBuf::from(given);
    }
    let here = PathBuf::from(env::var_os("CARGO_MANIFEST_DIR").expect("cargo sets it"));
    here.join(Path::new(USUAL_ARCHIVE))
}
