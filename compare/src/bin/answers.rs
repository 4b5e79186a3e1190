//! Writes the list of stored answers that crates/replay replays:
//!
//! answers > ../crates/replay/stdin
//!
//! The answers are those of the plain rendering of the papers. Every project
//! on the list is first compared on all sides, as `compare` does, so that the
//! answers are the original's wherever it ends.

use std::fmt::Write;
use std::process::exit;

use escarpim_compare::check::{check_bytes, check_project, reported, written, Call, Seen};
use escarpim_compare::generate::{self, Rng, Size};
use escarpim_compare::long::{long_project, long_walk};
use escarpim_compare::plain::{self, Project, ALWAYS, INJECTED};
use escarpim_compare::HAS_ORIGINAL;

const SEED: u64 = 20_261_116;

const HEADER: &str = "\
# Calls and their answers. Made by `cargo run --release --bin answers` in compare/: the answers are those of the plain rendering of
# the papers (compare/src/plain.rs), compared with the original Rust on every project whose sort it ends.
# A line: the entry's name, the length of the reply, that of the report, the allowance and the bytes of the project; behind the colons the
# number to be returned, the bytes to be written to the reply and those to the report. All in base 16; the bytes of both buffers start as 170.
";

/// How many random projects there are of each size, and their name.
const SHARES: [(&str, Size, usize); 4] = [
    ("Tiny", generate::TINY, 100),
    ("Small", generate::SMALL, 100),
    ("Middle", generate::MIDDLE, 12),
    ("Large", generate::LARGE, 3),
];

const BOTH: [Call; 2] = [Call::Groups, Call::Order];

/// How many byte strings of each refusal 1 to 9.
const REFUSED: usize = 8;

struct List {
    text: String,
    calls: usize,
    seen: Seen,
}

impl List {
    fn remark(&mut self, remark: &str) {
        writeln!(self.text, "# {remark}").unwrap();
    }

    fn words(&mut self, bytes: &[u8]) {
        for byte in bytes {
            write!(self.text, "{byte:02x} ").unwrap();
        }
    }

    /// Makes a call on the plain rendering and writes its line.
    fn call(&mut self, call: Call, bytes: &[u8], lengths: (usize, usize), allowance: u32) -> u32 {
        let mut reply = vec![170; lengths.0];
        let mut report = vec![170; lengths.1];
        let answer = call.plain_entry()(bytes, &mut reply, &mut report, allowance);
        let name = match call {
            Call::Groups => "groups",
            Call::Order => "order",
        };
        write!(
            self.text,
            "{name} {:x} {:x} {allowance:x} ",
            lengths.0, lengths.1
        )
        .unwrap();
        self.words(bytes);
        write!(self.text, ":{answer:x} :").unwrap();
        if answer == 0 {
            let end = written(call, &reported(&report), &reply);
            self.words(&reply[..end]);
        }
        self.text.push(':');
        if answer != 13 {
            self.words(&report[..20]);
        }
        self.text.truncate(self.text.trim_end().len());
        self.text.push('\n');
        self.calls += 1;
        answer
    }

    /// A whole call, then one of several others in turn: an allowance around
    /// an end, a short reply, a short report.
    fn project(&mut self, project: &Project, turn: usize) {
        if let Err(difference) = check_project(&mut self.seen, project, SEED ^ turn as u64) {
            fail(&difference);
        }
        let bytes = project.to_bytes();
        for call in BOTH {
            let least = call.reply_length(project);
            self.call(call, &bytes, (least + turn % 3, 20 + turn % 2), 0);
            let (modules, items) = visits(call, &bytes);
            let all = modules + items;
            let (lengths, allowance) = match turn % 8 {
                0 => ((least, 20), all - 1),
                1 => ((least, 20), all),
                2 => ((least, 20), all + 1),
                3 => ((least, 20), modules - 1),
                4 => ((least, 20), modules),
                5 => ((least, 20), modules + 1),
                6 => ((least.saturating_sub(1), 20), 0),
                _ => ((least, 19), 0),
            };
            if allowance > 0 || turn % 8 > 5 {
                self.call(call, &bytes, lengths, allowance);
            }
        }
    }

    /// A project with allowances that are given.
    fn sheet(&mut self, project: &Project, calls: &[Call], allowances: &[u32]) {
        if let Err(difference) = check_project(&mut self.seen, project, SEED) {
            fail(&difference);
        }
        for &allowance in allowances {
            for &call in calls {
                let lengths = (call.reply_length(project), 20);
                self.call(call, &project.to_bytes(), lengths, allowance);
            }
        }
    }
}

/// The module visits and the item visits of a call with the usual allowance.
fn visits(call: Call, bytes: &[u8]) -> (u32, u32) {
    let mut report = [0; 20];
    call.plain_entry()(bytes, &mut [0; 4_160], &mut report, 0);
    let numbers = reported(&report);
    (numbers[3], numbers[4])
}

fn fail(difference: &str) -> ! {
    eprintln!("answers: the sides differ, run `compare`\n{difference}");
    exit(1)
}

/// Byte strings for each of 1 to 9.
fn refused(list: &mut List) {
    let mut found = [0; 10];
    for n in 0.. {
        let mut rng = Rng::nth(SEED + 1, n);
        let size = [generate::TINY, generate::SMALL][rng.below(2)];
        let mut bytes = match rng.chance(1, 4) {
            true => generate::byte_string(&mut rng),
            false => generate::sized_project(&mut rng, size).to_bytes(),
        };
        generate::damage(&mut rng, &mut bytes);
        let Err(number) = plain::read(&bytes) else {
            continue;
        };
        let count = &mut found[number as usize];
        if *count == REFUSED || bytes.len() > 200 {
            continue;
        }
        *count += 1;
        if let Err(difference) = check_bytes(&mut list.seen, &bytes, n) {
            fail(&difference);
        }
        let call = BOTH[*count % 2];
        list.call(call, &bytes, (rng.below(40), 20), 0);
        if found[1..] == [REFUSED; 9] {
            return;
        }
    }
}

fn main() {
    if !HAS_ORIGINAL {
        eprintln!("answers: the original is not there (ESCARPIM_RUST_SRC)");
        exit(1);
    }
    let mut list = List {
        text: HEADER.to_string(),
        calls: 0,
        seen: Seen::default(),
    };
    list.remark("Walks that fill a list, and two long ones that end.");
    let mut unlisted = Project::empty(2);
    unlisted.imports = vec![(0, 1), (1, 0)];
    list.sheet(&unlisted, &BOTH, &[1_021, 1_022, 0]);
    let mut circle = Project::empty(2);
    circle.imports = vec![(0, 1)];
    circle.items = vec![(0, INJECTED); 2];
    circle.needs = vec![(0, 1, ALWAYS), (1, 0, ALWAYS)];
    list.sheet(&circle, &BOTH, &[16_386, 16_387, 0]);
    list.sheet(&long_walk(), &BOTH, &[0, 20_000, 100_000]);
    list.sheet(&long_project(), &[Call::Order], &[0, 100_000, u32::MAX]);
    list.remark("Refusals 1 to 9.");
    refused(&mut list);
    for (name, size, number) in SHARES {
        list.remark(&format!("{name} projects."));
        for n in 0..number {
            let mut rng = Rng::nth(SEED + number as u64, n as u64);
            list.project(&generate::sized_project(&mut rng, size), n);
        }
    }
    list.remark("A project of the largest size in every section.");
    let largest = generate::largest_project(&mut Rng::new(SEED));
    list.sheet(&largest, &BOTH, &[0]);
    eprintln!("{} calls, {} bytes", list.calls, list.text.len());
    print!("{}", list.text);
}
