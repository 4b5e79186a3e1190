//! The reader's numbers, the generator, shrinking, and a short comparison.

use escarpim_compare::check::{check_bytes, check_project, Seen};
use escarpim_compare::generate::{self, Rng};
use escarpim_compare::plain::{self, Project};
use escarpim_compare::sides::{sides, Entry};
use escarpim_compare::{long, shrink};

/// Two modules, two items, and a row in each section.
fn sample() -> Project {
    Project {
        modules: 2,
        entry: 1,
        items: vec![(0, 0), (1, 5)],
        imports: vec![(0, 1)],
        circles: vec![vec![0, 1], vec![]],
        needs: vec![(0, 1, 1)],
    }
}

/// The answer after single bytes are changed.
fn changed(changes: &[(usize, u8)]) -> u32 {
    let mut bytes = sample().to_bytes();
    for &(at, value) in changes {
        bytes[at] = value;
    }
    plain::read(&bytes).err().unwrap_or(0)
}

#[test]
fn layout() {
    let bytes = sample().to_bytes();
    let pairs: Vec<u8> = bytes[4..36].iter().copied().step_by(4).collect();
    assert_eq!(pairs, [36, 4, 40, 2, 42, 4, 46, 3]);
    assert_eq!(bytes[36..], [0, 0, 1, 5, 0, 1, 2, 0, 1, 0, 0, 1, 1]);
    assert_eq!(plain::read(&bytes), Ok(sample()));
}

#[test]
fn numbers_one_to_nine() {
    let bytes = sample().to_bytes();
    assert_eq!(plain::read(&bytes[..35]), Err(1));
    assert_eq!(plain::read(&[]), Err(1));
    assert_eq!(changed(&[]), 0);
    // 2: edition, byte 3.
    assert_eq!(changed(&[(0, 2)]), 2);
    assert_eq!(changed(&[(0, 0)]), 2);
    assert_eq!(changed(&[(3, 1)]), 2);
    // 3: offsets, lengths, the end of the input.
    for at in (4..36).step_by(4) {
        assert_eq!(changed(&[(at, bytes[at] + 1)]), 3);
        assert_eq!(changed(&[(at, bytes[at] - 1)]), 3);
        assert_eq!(changed(&[(at + 3, 255)]), 3);
    }
    assert_eq!(plain::read(&bytes[..bytes.len() - 1]), Err(3));
    assert_eq!(plain::read(&[&bytes[..], &[0]].concat()), Err(3));
    // 4: one byte moved from items to imports, from imports to circles.
    assert_eq!(changed(&[(8, 3), (12, 39), (16, 3)]), 4);
    assert_eq!(changed(&[(16, 3), (20, 43), (24, 3)]), 4);
    assert_eq!(changed(&[(24, 3), (28, 45), (32, 4)]), 4);
    // 5: M and entry.
    assert_eq!(changed(&[(1, 0)]), 5);
    assert_eq!(changed(&[(1, 65)]), 5);
    assert_eq!(changed(&[(1, 64)]), 0);
    assert_eq!(changed(&[(2, 2)]), 5);
    // 6 to 9: a byte of each row.
    assert_eq!(changed(&[(36, 2)]), 6);
    assert_eq!(changed(&[(37, 6)]), 6);
    assert_eq!(changed(&[(40, 2)]), 7);
    assert_eq!(changed(&[(41, 2)]), 7);
    assert_eq!(changed(&[(41, 0)]), 7);
    assert_eq!(changed(&[(42, 4)]), 8);
    assert_eq!(changed(&[(42, 3)]), 0);
    assert_eq!(changed(&[(43, 2)]), 8);
    assert_eq!(changed(&[(46, 2)]), 9);
    assert_eq!(changed(&[(47, 2)]), 9);
    assert_eq!(changed(&[(47, 0)]), 9);
    assert_eq!(changed(&[(48, 2)]), 9);
}

/// "Checked in the table's order".
#[test]
fn first_number_counts() {
    let faults = [(0, 2), (4, 35), (1, 0), (36, 9), (40, 9), (43, 9), (46, 9)];
    let numbers = [2, 3, 5, 6, 7, 8, 9];
    for first in 0..faults.len() {
        // M of 0 would hide the rest; each suffix starts after it.
        assert_eq!(changed(&faults[first..]), numbers[first]);
    }
}

/// The largest sections are accepted, one row more is 5.
#[test]
fn limits() {
    let mut largest = generate::largest_project(&mut Rng::new(3));
    assert_eq!(largest.to_bytes().len(), 36 + 512 + 1_024 + 512 + 6_144);
    assert_eq!(plain::read(&largest.to_bytes()), Ok(largest.clone()));
    for section in 0..4 {
        let mut outsize = largest.clone();
        match section {
            0 => outsize.items.push((0, 0)),
            1 => outsize.imports.push((0, 1)),
            2 => outsize.circles.push(Vec::new()),
            _ => outsize.needs.push((0, 1, 0)),
        }
        assert_eq!(plain::read(&outsize.to_bytes()), Err(5));
    }
    // Offset plus length past 32 bits is misplaced, not a panic.
    largest.needs.clear();
    let mut bytes = largest.to_bytes();
    bytes[32..36].fill(255);
    assert_eq!(plain::read(&bytes), Err(3));
}

/// 13 comes first, then 1 to 9, then 10.
#[test]
fn order_of_lengths() {
    let bytes = sample().to_bytes();
    let mut report = [9; 20];
    assert_eq!(
        plain::order_entry(&bytes[..3], &mut [], &mut report[..19], 0),
        13
    );
    assert_eq!(report, [9; 20]);
    assert_eq!(plain::order_entry(&bytes[..3], &mut [], &mut report, 0), 1);
    assert_eq!(report[..8], [1, 0, 0, 0, 0, 0, 0, 0]);
    assert_eq!(plain::order_entry(&bytes, &mut [0], &mut report, 0), 10);
    assert_eq!(plain::order_entry(&bytes, &mut [0; 2], &mut report, 0), 0);
    assert_eq!(plain::groups_entry(&bytes, &mut [0; 5], &mut report, 0), 10);
    assert_eq!(plain::groups_entry(&bytes, &mut [0; 6], &mut report, 0), 0);
}

#[test]
fn generated_projects_are_accepted() {
    for n in 0..500 {
        let project = generate::project(&mut Rng::nth(5, n));
        assert_eq!(plain::read(&project.to_bytes()), Ok(project));
    }
}

#[test]
fn a_short_comparison() {
    let mut seen = Seen::default();
    for n in 0..400 {
        let mut rng = Rng::nth(6, n);
        let size = [generate::TINY, generate::SMALL][rng.below(2)];
        let project = generate::sized_project(&mut rng, size);
        check_project(&mut seen, &project, n).unwrap();
        let mut bytes = project.to_bytes();
        generate::damage(&mut rng, &mut bytes);
        check_bytes(&mut seen, &bytes, n).unwrap();
        check_bytes(&mut seen, &generate::byte_string(&mut rng), n).unwrap();
    }
    assert!(seen.premise > 0);
}

/// Shrinks to the one need and the two items that the condition asks for.
#[test]
fn shrinking() {
    let mut rng = Rng::new(11);
    let project = generate::largest_project(&mut rng);
    let smallest = shrink::shrink(project, &mut |p| {
        plain::read(&p.to_bytes()).is_ok() && p.needs.iter().any(|need| need.2 == 1)
    });
    assert_eq!(smallest.modules, 1);
    assert_eq!(smallest.items, [(0, 0), (0, 0)]);
    assert_eq!(smallest.needs.len(), 1);
    assert!(smallest.imports.is_empty() && smallest.circles.is_empty());
}

/// The entry's number, the visits of both walks and the reply; the archive's
/// are those of the plain rendering.
fn order_entry(project: &Project, allowance: u32) -> (u32, u32, Vec<u8>) {
    let bytes = project.to_bytes();
    let call = |entry: Entry| {
        let (mut reply, mut report) = (vec![170; project.items.len()], [0; 20]);
        let number = entry(&bytes, &mut reply, &mut report, allowance);
        let visits = |at: usize| u32::from_le_bytes(report[at..at + 4].try_into().unwrap());
        (number, visits(12) + visits(16), reply)
    };
    let plain = call(plain::order_entry);
    for side in sides() {
        assert_eq!(call(side.order), plain, "{}", side.name);
    }
    plain
}

/// "Allowance 0 means 20,000": a sort that takes 20,662 item visits is spent
/// under 0, and gives its order under what the key program passes.
#[test]
fn allowance_zero() {
    let project = long::long_walk();
    let spent = (11, 20_000, vec![170; project.items.len()]);
    assert_eq!(order_entry(&project, 0), spent);
    assert_eq!(order_entry(&project, 20_000), spent);
    let (number, visits, order) = order_entry(&project, 100_000);
    let numbers = plain::order_call(&project.to_bytes(), &mut [0; 256], 100_000);
    assert_eq!((number, numbers[4]), (0, 20_662));
    assert_eq!(order_entry(&project, visits), (0, visits, order));
    assert_eq!(order_entry(&project, visits - 1).0, 11);
}

/// A sort of more than 100,000 visits is spent under 0 and under 100,000, each
/// time after as many visits as are allowed.
#[test]
fn longer_sort() {
    let project = long::long_project();
    for (allowance, visits) in [(0, 20_000), (100_000, 100_000)] {
        let (number, made, _) = order_entry(&project, allowance);
        assert_eq!((number, made), (11, visits));
    }
    let (number, visits, _) = order_entry(&project, u32::MAX);
    assert!(number == 0 && visits > 100_000);
}

/// "That is at most 12,479 entries": 63 modules with one injected item each,
/// then one with 193 plain items. Every entry of the first list is visited.
#[test]
fn largest_first_list() {
    let mut project = Project::empty(64);
    project.circles = vec![(0..64).collect()];
    project.imports = (0..64).map(|m| (m, (m + 1) % 64)).collect();
    // The group is the circle reversed, and its last member gives first.
    project.items = (0..63).map(|m| (m, plain::INJECTED)).collect();
    project.items.extend([(63, plain::PLAIN); 193]);
    check_project(&mut Seen::default(), &project, 1).unwrap();
    let mut reply = [0; 256];
    let numbers = plain::order_call(&project.to_bytes(), &mut reply, 0);
    assert_eq!(numbers, [0, 256, 1, 65, 12_479]);
}
