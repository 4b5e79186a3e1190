//! Times the original and the archive on the same projects, in one process.
//!
//! bench [--rounds N] [--projects N]
//! bench --profile KIND      only the archive, on one kind, for five seconds
//!
//! What is timed, for each call:
//!
//! - the original: `toposort_real_modules` alone. The modules' bodies, the
//!   module graph and the circles, which a host would have, are built before;
//!   each group's needs lie in a list of their own, so that `calc_deps`
//!   (replaced as document 01 says) looks at no others; what is returned is
//!   dropped after the time is taken. Charged to it beyond a host's use are
//!   the counting of visits in the stand-in of its queue and, where a walk is
//!   left, the unwinding.
//! - the archive: the whole entry `escarpim_order`, from the project's bytes
//!   to reply and report. The buffers are made once, as a host would.
//!
//! The sides take turns; the median of the rounds is printed.
//!
//! A row of random projects has 8 or 16 of them, again and again, so that the
//! processor comes to foresee their branches. With more, as `--projects 400`,
//! it foresees fewer, and either side takes longer.

#[cfg(not(all(feature = "archive", has_original)))]
fn main() {
    eprintln!("bench: both the archive and the original have to be there when this is built");
    std::process::exit(1);
}

#[cfg(all(feature = "archive", has_original))]
fn main() {
    bench::main();
}

#[cfg(all(feature = "archive", has_original))]
mod bench {
    use std::hint::black_box;
    use std::time::{Duration, Instant};

    use escarpim_compare::generate::{classes, Rng};
    use escarpim_compare::long::long_project;
    use escarpim_compare::original::{self, Bodies, Given, Sorted};
    use escarpim_compare::plain::{self, Project, Visits, ALWAYS, INJECTED, PLAIN};
    use escarpim_compare::sides::ARCHIVE;

    /// How long one side's part of a round is meant to take.
    const PART: Duration = Duration::from_millis(20);
    /// Bodies that are made at a time for the original.
    const BATCH: usize = 32;

    /// What a random project is to have.
    #[derive(Clone, Copy)]
    struct Shape {
        modules: usize,
        items: usize,
        imports: usize,
        needs: usize,
        /// Modules that import each other in a ring.
        ring: usize,
        /// Of 100 items, those that are injected.
        injected: usize,
        /// Of 100 needs, those that may run in a circle.
        backward: usize,
        /// Of 100 needs, those that stay in one module, if they can.
        inside: usize,
    }

    const TYPICAL: Shape = Shape {
        modules: 24,
        items: 100,
        imports: 40,
        needs: 300,
        ring: 4,
        injected: 10,
        backward: 5,
        inside: 50,
    };

    /// The first random projects of a shape whose sort ends.
    fn projects(shape: Shape, number: usize) -> Vec<Project> {
        let tries = (0..).map(|n| random_project(&mut Rng::nth(7, n), shape));
        tries.filter(|p| answer(p) == 0).take(number).collect()
    }

    fn answer(project: &Project) -> u32 {
        plain::order_call(&project.to_bytes(), &mut [0; 256], 0)[0]
    }

    fn random_project(rng: &mut Rng, shape: Shape) -> Project {
        let mut project = Project::empty(shape.modules);
        for m in 0..shape.ring {
            project.imports.push((m, (m + 1) % shape.ring));
        }
        let mut rank: Vec<usize> = (0..shape.modules).collect();
        rng.shuffle(&mut rank);
        while project.imports.len() < shape.imports {
            let (a, b) = (rng.below(shape.modules), rng.below(shape.modules));
            if rank[a] > rank[b] {
                project.imports.push((a, b));
            }
        }
        project.circles = classes(&project);
        for _ in 0..shape.items {
            let kind = match rng.below(100) < shape.injected {
                true => INJECTED,
                false => [PLAIN, PLAIN, PLAIN, 1, 2, 3][rng.below(6)],
            };
            project.items.push((rng.below(shape.modules), kind));
        }
        let mut rank: Vec<usize> = (0..shape.items).collect();
        rng.shuffle(&mut rank);
        while project.needs.len() < shape.needs {
            let (x, mut d) = (rng.below(shape.items), rng.below(shape.items));
            if rng.below(100) < shape.inside {
                let home: Vec<usize> = (0..shape.items)
                    .filter(|&row| row != x && project.items[row].0 == project.items[x].0)
                    .collect();
                d = home.get(rng.below(home.len())).copied().unwrap_or(d);
            }
            let injected = project.items[x].1 == INJECTED && project.items[d].1 == INJECTED;
            let turned = rng.below(100) < shape.backward && !injected;
            if rank[x] > rank[d] || (rank[x] < rank[d] && turned) {
                project.needs.push((x, d, rng.below(2) as u8));
            }
        }
        project
    }

    /// One project in the form of both sides.
    struct Case {
        bytes: Vec<u8>,
        given: Given,
        visits: u32,
    }

    impl Case {
        fn new(project: &Project, allowance: u32) -> Case {
            let bytes = project.to_bytes();
            let numbers = plain::order_call(&bytes, &mut [0; 256], allowance);
            Case {
                given: Given::grouped(project, group_of_items(project)),
                bytes,
                visits: numbers[3] + numbers[4],
            }
        }
    }

    /// The group of each item: the first that lists its module.
    fn group_of_items(project: &Project) -> Vec<usize> {
        let groups = plain::groups_of(project, &mut Visits::new(0)).unwrap_or_default();
        let group_of = |m: usize| groups.iter().position(|group| group.contains(&m));
        let modules = project.items.iter().map(|row| row.0);
        modules.map(|m| group_of(m).unwrap_or(0)).collect()
    }

    /// The time of one pass over all cases, for each side.
    fn time_archive(cases: &[Case], passes: usize, allowance: u32) -> Duration {
        let (mut reply, mut report) = ([0; 256], [0; 20]);
        let begin = Instant::now();
        for _ in 0..passes {
            for case in cases {
                let bytes = black_box(&case.bytes[..]);
                black_box((ARCHIVE.order)(bytes, &mut reply, &mut report, allowance));
            }
        }
        begin.elapsed() / passes as u32
    }

    fn time_original(cases: &[Case], passes: usize, allowance: u32) -> Duration {
        let allowance = Visits::new(allowance).allowance;
        let mut total = Duration::ZERO;
        let mut left = passes;
        while left > 0 {
            let batch = left.min(BATCH);
            for case in cases {
                let bodies: Vec<Bodies> = (0..batch).map(|_| case.given.fresh_bodies()).collect();
                let mut sorted: Vec<original::Run<Sorted>> = Vec::with_capacity(batch);
                let begin = Instant::now();
                for one in bodies {
                    sorted.push(original::order_only(black_box(&case.given), one, allowance));
                }
                total += begin.elapsed();
                black_box(&sorted);
            }
            left -= batch;
        }
        total / passes as u32
    }

    fn median(mut times: Vec<Duration>) -> f64 {
        times.sort_unstable();
        times[times.len() / 2].as_secs_f64() * 1e6
    }

    /// Microseconds for each call: of the original, of the archive.
    fn measure(cases: &[Case], allowance: u32, rounds: usize) -> (f64, f64) {
        let passes = |one: Duration| {
            let fit = PART.as_nanos() / one.as_nanos().max(1);
            fit.clamp(1, 100_000) as usize
        };
        let original_passes = passes(time_original(cases, 1, allowance));
        let archive_passes = passes(time_archive(cases, 1, allowance));
        let (mut originals, mut archives) = (Vec::new(), Vec::new());
        for _ in 0..rounds {
            originals.push(time_original(cases, original_passes, allowance));
            archives.push(time_archive(cases, archive_passes, allowance));
        }
        let calls = cases.len() as f64;
        (median(originals) / calls, median(archives) / calls)
    }

    fn line(name: &str, projects: &[Project], allowance: u32, rounds: usize) {
        let new = |project| Case::new(project, allowance);
        let cases: Vec<Case> = projects.iter().map(new).collect();
        let visits = cases.iter().map(|case| case.visits as f64).sum::<f64>() / cases.len() as f64;
        let (original, archive) = measure(&cases, allowance, rounds);
        println!(
            "| {name} | {visits:.0} | {original:.2} | {archive:.2} | {:.1} |",
            original / archive
        );
    }

    fn table(title: &str) {
        println!("\n| {title} | visits | original, µs | archive, µs | ratio |");
        println!("|---|---:|---:|---:|---:|");
    }

    fn machine() -> String {
        let text = std::fs::read_to_string("/proc/cpuinfo").unwrap_or_default();
        let name = text.lines().find(|line| line.starts_with("model name"));
        let name = name.and_then(|line| line.split(": ").nth(1));
        name.unwrap_or("unknown processor").to_string()
    }

    pub fn main() {
        let words: Vec<String> = std::env::args().skip(1).collect();
        let words: Vec<&str> = words.iter().map(|word| word.as_str()).collect();
        if let ["--profile", kind] = words[..] {
            return profile(kind);
        }
        let (mut rounds, mut number) = (9, None);
        for option in words.chunks(2) {
            match option {
                ["--rounds", n] if positive(n).is_some() => rounds = positive(n).unwrap_or(1),
                ["--projects", n] if positive(n).is_some() => number = positive(n),
                _ => {
                    eprintln!("usage: bench [--rounds N] [--projects N] | bench --profile KIND");
                    std::process::exit(2);
                }
            }
        }
        tables(rounds, number);
    }

    fn positive(word: &str) -> Option<usize> {
        word.parse().ok().filter(|&n| n > 0)
    }

    /// `number` is how many random projects a row has, if not the usual number.
    fn tables(rounds: usize, number: Option<usize>) {
        println!(
            "{}, median of {rounds} rounds, time of one order call",
            machine()
        );
        table("kind");
        for (name, projects) in kinds(number) {
            line(name, &projects, 0, rounds);
        }
        growth(rounds, number.unwrap_or(8));
    }

    /// Calls the archive again and again on the first kind whose name starts
    /// so, for a profiler.
    fn profile(kind: &str) {
        let Some((_, projects)) = kinds(None).into_iter().find(|k| k.0.starts_with(kind)) else {
            eprintln!("bench: no such kind");
            std::process::exit(2);
        };
        let cases: Vec<Case> = projects.iter().map(|p| Case::new(p, 0)).collect();
        let begin = Instant::now();
        while begin.elapsed() < Duration::from_secs(5) {
            time_archive(&cases, 10, 0);
        }
    }

    fn kinds(number: Option<usize>) -> Vec<(&'static str, Vec<Project>)> {
        let usual = number.unwrap_or(16);
        let mut one = Project::empty(1);
        one.items = vec![(0, PLAIN)];
        let small = Shape {
            modules: 4,
            items: 8,
            imports: 5,
            needs: 12,
            ring: 2,
            ..TYPICAL
        };
        let largest = Shape {
            modules: 64,
            items: 256,
            imports: 512,
            needs: 2_048,
            ring: 8,
            ..TYPICAL
        };
        let dense = Shape {
            imports: 200,
            ring: 24,
            injected: 0,
            backward: 50,
            ..TYPICAL
        };
        let injected = Shape {
            injected: 90,
            ..TYPICAL
        };
        let mut full = Project::empty(2);
        full.imports = vec![(0, 1)];
        full.items = vec![(0, INJECTED); 2];
        full.needs = vec![(0, 1, ALWAYS), (1, 0, ALWAYS)];
        vec![
            ("one item", vec![one]),
            (
                "small (4 modules, 8 items, 12 needs)",
                projects(small, usual),
            ),
            (
                "typical (24 modules, 100 items, 300 needs)",
                projects(TYPICAL, usual),
            ),
            (
                "largest (64 modules, 256 items, 2,048 needs)",
                projects(largest, number.unwrap_or(8)),
            ),
            ("dense circles (24 modules in one)", projects(dense, usual)),
            (
                "injected-heavy (90 of 100 items)",
                projects(injected, usual),
            ),
            ("a walk that ends in 12", vec![full]),
        ]
    }

    /// How time grows with items, with needs and with visits.
    fn growth(rounds: usize, number: usize) {
        table("items, with 24 modules and 3 needs for each");
        for items in [16, 32, 64, 128, 256] {
            let shape = Shape {
                items,
                needs: 3 * items,
                ..TYPICAL
            };
            line(&items.to_string(), &projects(shape, number), 0, rounds);
        }
        table("needs, with 24 modules and 256 items");
        for needs in [128, 256, 512, 1_024, 2_048] {
            let shape = Shape {
                items: 256,
                needs,
                ..TYPICAL
            };
            line(&needs.to_string(), &projects(shape, number), 0, rounds);
        }
        table("allowance, on one project of 252 items");
        for allowance in [1_000, 10_000, 100_000] {
            line(&allowance.to_string(), &[long_project()], allowance, rounds);
        }
    }
}
