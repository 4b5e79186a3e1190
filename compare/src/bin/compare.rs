//! Compares the sides on random projects and byte strings.
//!
//! compare [--long] [--projects N] [--bytes N] [--largest N] [--seed S]

use std::process::exit;
use std::time::{Duration, Instant};

use escarpim_compare::check::{check_bytes, check_project, Seen};
use escarpim_compare::generate::{self, Rng};
use escarpim_compare::long::{long_project, long_walk};
use escarpim_compare::plain::{self, Project};
use escarpim_compare::{shrink, sides::sides, HAS_ORIGINAL};

struct Options {
    projects: u64,
    bytes: u64,
    largest: u64,
    seed: u64,
}

fn options() -> Options {
    let mut options = Options {
        projects: 20_000,
        bytes: 100_000,
        largest: 20,
        seed: 1,
    };
    let mut words = std::env::args().skip(1);
    while let Some(word) = words.next() {
        let place = match word.as_str() {
            "--long" => {
                options.projects = 1_000_000;
                options.bytes = 1_000_000;
                options.largest = 500;
                continue;
            }
            "--projects" => &mut options.projects,
            "--bytes" => &mut options.bytes,
            "--largest" => &mut options.largest,
            "--seed" => &mut options.seed,
            _ => fail(&format!("unknown option {word}")),
        };
        match words.next().and_then(|value| value.parse().ok()) {
            Some(value) => *place = value,
            None => fail(&format!("{word} wants a number")),
        }
    }
    options
}

fn fail(message: &str) -> ! {
    eprintln!("compare: {message}");
    eprintln!("usage: compare [--long] [--projects N] [--bytes N] [--largest N] [--seed S]");
    exit(2)
}

/// Prints a line now and then in long runs.
struct Progress {
    begin: Instant,
    next: Instant,
}

impl Progress {
    const EVERY: Duration = Duration::from_secs(10);

    fn new() -> Progress {
        let begin = Instant::now();
        let next = begin + Self::EVERY;
        Progress { begin, next }
    }

    fn step(&mut self, what: &str, done: u64, of: u64) {
        if Instant::now() >= self.next {
            let seconds = self.begin.elapsed().as_secs();
            eprintln!("{done} of {of} {what}, no difference, {seconds} s");
            self.next += Self::EVERY;
        }
    }
}

fn main() {
    let options = options();
    if !HAS_ORIGINAL {
        println!(
            "The original is not there: its folder was not found when this was built \
             (ESCARPIM_RUST_SRC). Nothing is compared with it."
        );
    }
    let begin = Instant::now();
    let mut seen = Seen::default();
    let mut progress = Progress::new();
    for project in [long_walk(), long_project()] {
        compare_project(&mut seen, &project, options.seed);
    }
    for n in 0..options.projects {
        let project = generate::project(&mut Rng::nth(options.seed, n));
        compare_project(&mut seen, &project, options.seed ^ n);
        progress.step("projects", n, options.projects);
    }
    for n in 0..options.largest {
        let project = generate::largest_project(&mut Rng::nth(!options.seed, n));
        compare_project(&mut seen, &project, options.seed ^ n);
        progress.step("largest projects", n, options.largest);
    }
    for n in 0..options.bytes {
        let bytes = some_bytes(&mut Rng::nth(options.seed.wrapping_add(1 << 32), n));
        compare_bytes(&mut seen, &bytes, options.seed ^ n);
        progress.step("byte strings", n, options.bytes);
    }
    summary(&seen, begin.elapsed());
}

/// A damaged project, most often, or a random byte string.
fn some_bytes(rng: &mut Rng) -> Vec<u8> {
    if rng.chance(1, 4) {
        return generate::byte_string(rng);
    }
    let size = match rng.below(20) {
        0 => generate::LARGE,
        1..=9 => generate::SMALL,
        _ => generate::TINY,
    };
    let mut bytes = generate::sized_project(rng, size).to_bytes();
    generate::damage(rng, &mut bytes);
    bytes
}

fn compare_project(seen: &mut Seen, project: &Project, seed: u64) {
    if let Err(difference) = check_project(seen, project, seed) {
        report_project(project, seed, &difference);
    }
}

fn compare_bytes(seen: &mut Seen, bytes: &[u8], seed: u64) {
    let Err(difference) = check_bytes(seen, bytes, seed) else {
        return;
    };
    if let Ok(project) = plain::read(bytes) {
        if check_project(&mut Seen::default(), &project, seed).is_err() {
            report_project(&project, seed, &difference);
        }
    }
    report_bytes(bytes, seed, &difference);
}

/// Prints the smallest byte string that still fails, and ends.
fn report_bytes(bytes: &[u8], seed: u64, difference: &str) -> ! {
    let fails = |b: &[u8]| check_bytes(&mut Seen::default(), b, seed).err();
    let smallest = shrink::shrink_bytes(bytes.to_vec(), &mut |b| fails(b).is_some());
    println!("DIFFERENCE on these bytes");
    println!("{}", shrink::hex(&smallest));
    match plain::read(&smallest) {
        Ok(project) => println!("{}", shrink::rows(&project)),
        Err(number) => println!("they are no project: {number}"),
    }
    println!("{}", fails(&smallest).as_deref().unwrap_or(difference));
    exit(1);
}

/// Prints the smallest project that still fails, and ends.
fn report_project(project: &Project, seed: u64, difference: &str) -> ! {
    let fails = |p: &Project| check_project(&mut Seen::default(), p, seed).err();
    let smallest = shrink::shrink(project.clone(), &mut |p| fails(p).is_some());
    println!("DIFFERENCE on this project");
    println!("{}", shrink::hex(&smallest.to_bytes()));
    println!("{}", shrink::rows(&smallest));
    println!("{}", fails(&smallest).as_deref().unwrap_or(difference));
    exit(1);
}

fn summary(seen: &Seen, time: Duration) {
    println!(
        "{} projects ({} of them meet the premise on circles), {} byte strings ({} accepted), \
         {} calls, {:.1} s",
        seen.projects,
        seen.premise,
        seen.strings,
        seen.accepted,
        seen.calls,
        time.as_secs_f64()
    );
    for ((call, answer), count) in &seen.answers {
        println!("  {call:?} answer {answer}: {count}");
    }
    if HAS_ORIGINAL {
        println!(
            "original: {} runs ended, {} spent under allowance 0, {} cut with a full list, \
             {} at other allowances",
            seen.original_ended, seen.original_spent, seen.original_full, seen.original_cut
        );
    }
    let mut sides: Vec<&str> = sides().iter().map(|side| side.name).collect();
    sides.push("the plain rendering of the papers");
    if HAS_ORIGINAL {
        sides.push("the original");
    }
    println!("no difference between {}", sides.join(", "));
}
