//! Projects whose sort ends, but only after many visits: the meaning of
//! allowance 0 and what the key program passes can be seen on them.

use crate::plain::{self, Project, ALWAYS, INJECTED, PLAIN};

/// The plain and the injected items of one module.
const PLAIN_ITEMS: usize = 27;
const INJECTED_ITEMS: usize = 9;

/// The needs of one module: item, item it depends on.
#[rustfmt::skip]
const NEEDS: [(usize, usize); 160] = [
    (33, 24), (30, 16), (3, 28), (6, 28), (1, 28), (34, 35), (13, 28), (14, 28),
    (33, 19), (20, 32), (7, 27), (31, 33), (33, 35), (27, 7), (4, 27), (20, 29),
    (35, 23), (27, 18), (29, 30), (33, 18), (22, 27), (30, 23), (33, 34), (9, 27),
    (32, 1), (10, 28), (28, 32), (35, 21), (32, 33), (32, 20), (28, 24), (28, 1),
    (29, 33), (32, 0), (27, 20), (33, 2), (29, 2), (33, 15), (29, 16), (35, 18),
    (5, 28), (18, 32), (2, 28), (33, 17), (7, 28), (27, 32), (29, 34), (30, 25),
    (33, 21), (29, 12), (33, 13), (27, 12), (27, 24), (28, 21), (27, 6), (28, 31),
    (33, 12), (32, 15), (28, 10), (25, 27), (16, 28), (6, 31), (30, 19), (32, 21),
    (7, 29), (6, 29), (29, 25), (28, 19), (27, 23), (33, 23), (35, 20), (31, 34),
    (35, 17), (17, 27), (30, 10), (31, 15), (19, 27), (30, 14), (17, 33), (31, 19),
    (5, 31), (35, 4), (9, 29), (29, 19), (31, 20), (0, 29), (29, 23), (30, 33),
    (30, 20), (32, 35), (30, 18), (24, 27), (30, 13), (30, 22), (28, 15), (12, 27),
    (28, 23), (1, 29), (27, 28), (27, 2), (3, 31), (1, 31), (28, 12), (34, 15),
    (11, 27), (9, 35), (34, 4), (15, 27), (34, 22), (30, 15), (8, 29), (28, 33),
    (29, 13), (31, 13), (32, 13), (3, 33), (5, 29), (28, 14), (27, 21), (30, 31),
    (27, 34), (30, 35), (32, 23), (32, 17), (5, 34), (29, 4), (9, 33), (2, 34),
    (28, 2), (11, 34), (27, 4), (24, 34), (33, 10), (31, 4), (28, 4), (32, 18),
    (32, 25), (35, 19), (29, 24), (23, 27), (29, 31), (32, 19), (33, 8), (28, 18),
    (28, 8), (28, 34), (29, 14), (28, 22), (31, 18), (28, 13), (28, 35), (21, 28),
    (27, 35), (29, 10), (29, 18), (34, 13), (16, 31), (29, 20), (28, 25), (16, 34),
];

/// The modules that are alike. Each is sorted by itself, in over 14,300 visits.
const MODULES: usize = 7;

/// A project whose sort takes 20,662 item visits: more than 20,000 visits and
/// less than 100,000.
pub fn long_walk() -> Project {
    plain::read(include_bytes!("../data/long-walk.bin")).expect("it is accepted")
}

/// Seven modules alike, which import an eighth without items: more than
/// 100,000 visits. Found by search.
pub fn long_project() -> Project {
    let mut project = Project::empty(MODULES + 1);
    for module in 0..MODULES {
        let first = project.items.len();
        project.imports.push((module, MODULES));
        project.items.extend([(module, PLAIN); PLAIN_ITEMS]);
        project.items.extend([(module, INJECTED); INJECTED_ITEMS]);
        for (x, d) in NEEDS {
            project.needs.push((first + x, first + d, ALWAYS));
        }
    }
    project
}
