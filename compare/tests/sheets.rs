//! The sheets of document 01, through the plain rendering and, where it
//! applies, the original.

use escarpim_compare::check::{check_project, Seen};
use escarpim_compare::plain::{self, Numbers, Paths, Project, ALWAYS, INJECTED, MAYBE, SUBCLASS};

type Items<'a> = &'a [(usize, u8)];
type Imports<'a> = &'a [(usize, usize)];
type Circles<'a> = &'a [&'a [usize]];
type Needs<'a> = &'a [(usize, usize, u8)];

/// "The entry module is 0 in each".
fn project(
    modules: usize,
    items: Items,
    imports: Imports,
    circles: Circles,
    needs: Needs,
) -> Project {
    Project {
        modules,
        entry: 0,
        items: items.to_vec(),
        imports: imports.to_vec(),
        circles: circles.iter().map(|list| list.to_vec()).collect(),
        needs: needs.to_vec(),
    }
}

/// An order call, and that all sides agree on the project.
fn order(project: &Project, allowance: u32) -> (Numbers, Vec<u8>) {
    agree(project);
    let mut reply = vec![0; project.items.len()];
    let numbers = plain::order_call(&project.to_bytes(), &mut reply, allowance);
    reply.truncate(numbers[1] as usize);
    (numbers, reply)
}

/// A groups call likewise.
fn groups(project: &Project, allowance: u32) -> (Numbers, Vec<Vec<u8>>) {
    agree(project);
    let mut reply = vec![0; project.modules * (project.modules + 1)];
    let numbers = plain::groups_call(&project.to_bytes(), &mut reply, allowance);
    let mut rest = &reply[..];
    let mut groups = Vec::new();
    for _ in 0..numbers[2] {
        let (group, after) = rest[1..].split_at(rest[0] as usize);
        groups.push(group.to_vec());
        rest = after;
    }
    (numbers, groups)
}

fn agree(project: &Project) {
    if let Err(difference) = check_project(&mut Seen::default(), project, 1) {
        panic!("{difference}");
    }
}

#[test]
fn one() {
    let bytes = [
        1, 1, 0, 0, 36, 0, 0, 0, 2, 0, 0, 0, 38, 0, 0, 0, 0, 0, 0, 0, 38, 0, 0, 0, 0, 0, 0, 0, 38,
        0, 0, 0, 0, 0, 0, 0, 0, 0,
    ];
    assert_eq!(bytes.len(), 38);
    let one = project(1, &[(0, 0)], &[], &[], &[]);
    assert_eq!(one.to_bytes(), bytes);
    assert_eq!(order(&one, 0), ([0, 1, 1, 2, 0], vec![0]));
    let mut reply = [7];
    assert_eq!(
        plain::order_call(&bytes[..35], &mut reply, 0),
        [1, 0, 0, 0, 0]
    );
    assert_eq!(reply, [7]);
}

#[test]
fn early() {
    let early = project(
        2,
        &[(0, 0), (1, 0), (1, 0), (1, INJECTED), (1, INJECTED)],
        &[(0, 1), (1, 0)],
        &[&[0, 1]],
        &[
            (0, 2, ALWAYS),
            (1, 3, ALWAYS),
            (4, 3, ALWAYS),
            (4, 2, ALWAYS),
        ],
    );
    assert_eq!(order(&early, 0), ([0, 5, 1, 3, 11], vec![3, 2, 4, 1, 0]));
}

#[test]
fn twice() {
    let twice = project(
        3,
        &[(0, 0), (1, 0), (2, 0)],
        &[(1, 2), (2, 1)],
        &[&[0, 1, 2]],
        &[],
    );
    let made = vec![vec![0], vec![2, 1, 0]];
    assert_eq!(groups(&twice, 0), ([0, 0, 2, 4, 0], made));
    assert_eq!(order(&twice, 0), ([0, 3, 2, 4, 2], vec![0, 1, 2]));
}

#[test]
fn fallback() {
    let fallback = project(3, &[], &[(0, 2), (2, 0)], &[&[0, 1]], &[]);
    assert_eq!(groups(&fallback, 0), ([0, 0, 1, 8, 0], vec![vec![1, 0, 2]]));
}

#[test]
fn unlisted() {
    let unlisted = project(2, &[], &[(0, 1), (1, 0)], &[], &[]);
    for (allowance, numbers) in [
        (1_021, [11, 0, 0, 1_021, 0]),
        (1_022, [12, 0, 0, 1_022, 0]),
        (1_023, [12, 0, 0, 1_022, 0]),
    ] {
        assert_eq!(groups(&unlisted, allowance).0, numbers);
        assert_eq!(order(&unlisted, allowance).0, numbers);
    }
}

#[test]
fn injected_circle() {
    let circle = project(
        2,
        &[(0, INJECTED), (0, INJECTED)],
        &[(0, 1)],
        &[],
        &[(0, 1, ALWAYS), (1, 0, ALWAYS)],
    );
    assert_eq!(groups(&circle, 0).0, [0, 0, 2, 5, 0]);
    assert_eq!(order(&circle, 16_386).0, [11, 0, 0, 5, 16_381]);
    assert_eq!(order(&circle, 16_387).0, [12, 0, 0, 5, 16_382]);
}

#[test]
fn weights() {
    let mut weights = project(
        2,
        &[(0, SUBCLASS), (1, 0)],
        &[(0, 1), (1, 0)],
        &[&[0, 1]],
        &[(0, 1, ALWAYS), (0, 1, MAYBE), (1, 0, ALWAYS)],
    );
    assert_eq!(order(&weights, 0), ([0, 2, 1, 3, 2], vec![0, 1]));
    weights.needs.swap(0, 1);
    assert_eq!(order(&weights, 0), ([0, 2, 1, 3, 4], vec![0, 1]));
}

#[test]
fn untouched() {
    let untouched = project(1, &[(0, INJECTED), (0, 0)], &[], &[], &[(0, 1, ALWAYS)]);
    assert_eq!(order(&untouched, 0), ([0, 2, 1, 2, 0], vec![0, 1]));
}

/// "needs 0→1, 2→3, 1→2 leave 3 out of P(0)".
#[test]
fn path_example() {
    let needs = [(0, 1), (2, 3), (1, 2)];
    let held = [(0, 1), (0, 2), (1, 2), (1, 3), (2, 3)];
    let mut paths = Paths::new(4);
    for (x, y) in needs {
        paths.add_need(x, y, ALWAYS);
    }
    for x in 0..4 {
        for y in 0..4 {
            assert_eq!(paths.holds(x, y), held.contains(&(x, y)));
            #[cfg(has_original)]
            assert_eq!(
                escarpim_compare::original::has_a_path(&needs, x, y),
                held.contains(&(x, y))
            );
        }
    }
}
