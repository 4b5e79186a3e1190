//! The program of crates/key, run as it was built: what it prints is what the
//! plain rendering prints, on every kind of answer and for every way in which
//! its input arrives.

use escarpim_compare::generate::{self, Rng};
use escarpim_compare::long::{long_project, long_walk};
use escarpim_compare::plain::{self, Project, ALWAYS, EMPTY, INJECTED, PLAIN};
use std::io::{ErrorKind, Read, Write};
use std::path::PathBuf;
use std::process::{Child, Command, Stdio};
use std::time::Duration;

/// Where the program is: ESCARPIM_KEY, or where `rt run` in crates/key puts it.
fn program() -> PathBuf {
    let usual = concat!(env!("CARGO_MANIFEST_DIR"), "/../crates/key/out/key");
    let path = PathBuf::from(std::env::var_os("ESCARPIM_KEY").unwrap_or(usual.into()));
    assert!(
        path.is_file(),
        "there is no key program at {}: make it by `rt run` in crates/key, or name it by ESCARPIM_KEY",
        path.display()
    );
    path
}

fn start() -> Child {
    Command::new(program())
        .stdin(Stdio::piped())
        .stdout(Stdio::piped())
        .spawn()
        .expect("the key program starts")
}

/// Writes what the program still takes: it may end before a long input does.
fn write(child: &mut Child, bytes: &[u8]) {
    let input = child.stdin.as_mut().unwrap();
    match input.write_all(bytes).and_then(|()| input.flush()) {
        Err(error) if error.kind() != ErrorKind::BrokenPipe => panic!("{error}"),
        _ => {}
    }
}

/// Ends the input; what the program has printed.
fn finish(mut child: Child) -> String {
    drop(child.stdin.take());
    let mut printed = String::new();
    let output = child.stdout.as_mut().unwrap();
    output.read_to_string(&mut printed).unwrap();
    assert!(child.wait().unwrap().success());
    printed
}

fn key(input: &[u8]) -> String {
    let mut child = start();
    write(&mut child, input);
    finish(child)
}

/// The program and the plain rendering print `expected`.
fn prints(input: &[u8], expected: &str) {
    assert_eq!(plain::key(input), expected, "the plain rendering");
    assert_eq!(key(input), expected, "the program");
}

/// The program prints what the plain rendering does.
fn agrees(input: &[u8]) -> String {
    let printed = key(input);
    assert_eq!(printed, plain::key(input), "{input:?}");
    printed
}

fn one() -> Project {
    let mut project = Project::empty(1);
    project.items.push((0, PLAIN));
    project
}

fn early() -> Project {
    Project {
        modules: 2,
        entry: 0,
        items: vec![
            (0, PLAIN),
            (1, PLAIN),
            (1, PLAIN),
            (1, INJECTED),
            (1, INJECTED),
        ],
        imports: vec![(0, 1), (1, 0)],
        circles: vec![vec![0, 1]],
        needs: vec![
            (0, 2, ALWAYS),
            (1, 3, ALWAYS),
            (4, 3, ALWAYS),
            (4, 2, ALWAYS),
        ],
    }
}

/// Two modules that import each other.
fn unlisted() -> Project {
    let mut project = Project::empty(2);
    project.imports = vec![(0, 1), (1, 0)];
    project
}

/// All sections as long as they can be: 8,228 bytes.
fn full() -> Project {
    let mut project = Project::empty(64);
    project.items = (0..256).map(|row| (row / 4, PLAIN)).collect();
    project.imports = (0..512).map(|row| (row % 63 + 1, row % 63)).collect();
    project.circles = vec![Vec::new(); 512];
    project.needs = (0..2_048)
        .map(|row| (row % 255, row % 255 + 1, ALWAYS))
        .collect();
    project
}

/// A project without rows but for needs of `length` bytes, all 0.
fn long_needs(length: u32) -> Vec<u8> {
    let mut bytes = Project::empty(1).to_bytes();
    bytes[32..36].copy_from_slice(&length.to_le_bytes());
    bytes.resize(36 + length as usize, 0);
    bytes
}

#[test]
fn sheets() {
    prints(&one().to_bytes(), "ok 1 1 2 0\n0\n");
    prints(&early().to_bytes(), "ok 5 1 3 11\n3 2 4 1 0\n");
}

#[test]
fn refusals() {
    let with = |change: &dyn Fn(&mut Project)| {
        let mut project = early();
        change(&mut project);
        project.to_bytes()
    };
    let with_byte = |at: usize, byte: u8| {
        let mut bytes = early().to_bytes();
        bytes[at] = byte;
        bytes
    };
    prints(&[], "no 1\n");
    prints(&one().to_bytes()[..35], "no 1\n");
    prints(&with_byte(0, 2), "no 2\n");
    prints(&with_byte(3, 1), "no 2\n");
    prints(&with_byte(4, 37), "no 3\n");
    prints(&[early().to_bytes(), vec![0]].concat(), "no 3\n");
    prints(&long_needs(4), "no 4\n");
    prints(&with_byte(1, 0), "no 5\n");
    prints(&with_byte(1, 65), "no 5\n");
    prints(&with_byte(2, 2), "no 5\n");
    prints(&with(&|p| p.items[4] = (2, PLAIN)), "no 6\n");
    prints(&with(&|p| p.items[4] = (0, 6)), "no 6\n");
    prints(&with(&|p| p.imports[1] = (1, 1)), "no 7\n");
    prints(&with(&|p| p.circles[0][1] = 2), "no 8\n");
    prints(&with(&|p| p.needs[3] = (5, 0, ALWAYS)), "no 9\n");
    prints(&with(&|p| p.needs[3] = (0, 1, 2)), "no 9\n");
    prints(&long_project().to_bytes(), "no 11\n");
    prints(&unlisted().to_bytes(), "no 12\n");
}

/// Allowance 0 would not do: it means 20,000.
#[test]
fn long_sorts() {
    let project = long_walk();
    let mut reply = [0; 256];
    let [number, kept, groups, modules, items] =
        plain::order_call(&project.to_bytes(), &mut reply, 100_000);
    assert!(number == 0 && items == 20_662);
    let rows: Vec<String> = reply[..kept as usize].iter().map(u8::to_string).collect();
    let expected = format!("ok {kept} {groups} {modules} {items}\n{}\n", rows.join(" "));
    prints(&project.to_bytes(), &expected);
}

#[test]
fn nothing_is_kept() {
    let mut project = one();
    project.items[0].1 = EMPTY;
    prints(&project.to_bytes(), "ok 0 1 2 0\n\n");
    prints(&Project::empty(64).to_bytes(), "ok 0 64 65 0\n\n");
}

#[test]
fn as_many_rows_as_there_can_be() {
    let mut project = one();
    project.items = vec![(0, PLAIN); 256];
    let rows: Vec<String> = (0..256).map(|row| row.to_string()).collect();
    let expected = format!("ok 256 1 2 0\n{}\n", rows.join(" "));
    prints(&project.to_bytes(), &expected);
    project.items = vec![(0, EMPTY); 256];
    prints(&project.to_bytes(), "ok 0 1 2 0\n\n");
}

#[test]
fn long_inputs() {
    let full = full().to_bytes();
    assert_eq!(full.len(), 8_228);
    assert!(agrees(&full).starts_with("ok 256 64 "));
    for length in [8_229, 8_230, 9_000, 200_000] {
        let mut bytes = full.clone();
        bytes.resize(length, 0);
        prints(&bytes, "no 3\n");
    }
    // Their needs end the input: up to 8,229 bytes they are too many, beyond the input is cut.
    for (length, expected) in [(8_193, "no 5\n"), (8_194, "no 3\n"), (8_964, "no 3\n")] {
        prints(&long_needs(length), expected);
    }
    assert_eq!(long_needs(8_193).len(), 8_229);
    assert_eq!(plain::read(&long_needs(8_194)), Err(4));
}

#[test]
fn byte_by_byte() {
    let byte_by_byte = |input: &[u8], pause: Duration| {
        let mut child = start();
        for byte in input {
            write(&mut child, &[*byte]);
            std::thread::sleep(pause);
        }
        finish(child)
    };
    let early = early().to_bytes();
    let printed = byte_by_byte(&early, Duration::from_millis(1));
    assert_eq!(printed, "ok 5 1 3 11\n3 2 4 1 0\n");
    let full = full().to_bytes();
    assert_eq!(byte_by_byte(&full, Duration::ZERO), plain::key(&full));
    let longer = [full, vec![0; 772]].concat();
    assert_eq!(longer.len(), 9_000);
    assert_eq!(byte_by_byte(&longer, Duration::ZERO), "no 3\n");
}

#[test]
fn random_projects() {
    let mut given = 0;
    for n in 0..300 {
        let mut rng = Rng::nth(20_261_116, n);
        let mut bytes = generate::project(&mut rng).to_bytes();
        given += agrees(&bytes).starts_with("ok ") as u32;
        generate::damage(&mut rng, &mut bytes);
        agrees(&bytes);
        agrees(&generate::byte_string(&mut rng));
    }
    assert!(given > 100, "{given}");
}
