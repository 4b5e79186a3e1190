//! Demand 3 checked on single answers: what has to hold of every order and
//! every grouping that is given, and of every count of module visits.

use crate::generate::reaches;
use crate::plain::{Numbers, Project, EMPTY, INJECTED};

/// An answer's five numbers and the bytes that it wrote.
pub type Answer<'a> = (&'a Numbers, &'a [u8]);

pub fn check(project: &Project, groups: Answer, order: Answer) -> Result<(), String> {
    if project.meets_premise() {
        let most = (2 * project.modules + project.different_imports()) as u32;
        for numbers in [groups.0, order.0] {
            if numbers[3] > most {
                return Err(format!("{} module visits, at most {most}", numbers[3]));
            }
        }
        if groups.0[0] != 0 {
            return Err("grouping is not given".into());
        }
    }
    if order.0[0] != 0 {
        return Ok(());
    }
    let place = once_each(project, order.1)?;
    if groups.0[0] != 0 {
        return Err("an order without groups".into());
    }
    let group_of = first_groups(project, groups.1);
    dependencies(project, &place, &group_of)?;
    if project.meets_premise() {
        imports(project, &place)?;
    }
    Ok(())
}

/// "an order that it gives holds every kept item just once and nothing else".
/// Gives the place of each row.
fn once_each(project: &Project, order: &[u8]) -> Result<Vec<Option<usize>>, String> {
    let mut place = vec![None; project.items.len()];
    for (at, &row) in order.iter().enumerate() {
        match place.get_mut(row as usize) {
            Some(free @ None) => *free = Some(at),
            _ => return Err(format!("item {row} twice, or no item")),
        }
    }
    for (row, &(_, kind)) in project.items.iter().enumerate() {
        if place[row].is_some() != (kind != EMPTY) {
            return Err(format!("item {row} is missing, or should be"));
        }
    }
    Ok(place)
}

/// For each module the first group that lists it, and whether that group is
/// sorted.
fn first_groups(project: &Project, reply: &[u8]) -> Vec<(usize, bool)> {
    let mut found = vec![None; project.modules];
    let mut rest = reply;
    let mut number = 0;
    while let [count, after @ ..] = rest {
        let (members, next) = after.split_at(*count as usize);
        let first = members[0] as usize;
        let imports_nothing = !project.imports.iter().any(|row| row.0 == first);
        let sorted = !(members.len() == 1 && imports_nothing);
        for &m in members {
            found[m as usize].get_or_insert((number, sorted));
        }
        rest = next;
        number += 1;
    }
    let each = found.into_iter();
    each.map(|group| group.expect("every module has a group"))
        .collect()
}

/// "An item of a sorted group stands there before one it depends on in that
/// group only if it is not injected and either both are uninjected items of
/// one module or the other reaches it over that group's dependencies."
fn dependencies(
    project: &Project,
    place: &[Option<usize>],
    group_of: &[(usize, bool)],
) -> Result<(), String> {
    let inside = |&&(x, d, _): &&(usize, usize, u8)| {
        place[x].is_some()
            && place[d].is_some()
            && group_of[project.items[x].0] == group_of[project.items[d].0]
    };
    let needs: Vec<_> = project.needs.iter().filter(inside).collect();
    let mut onward = vec![Vec::new(); project.items.len()];
    for &&(x, d, _) in &needs {
        onward[x].push(d);
    }
    for &&(x, d, _) in &needs {
        let ((_, sorted), (module, kind)) = (group_of[project.items[x].0], project.items[x]);
        if !sorted || place[x] > place[d] {
            continue;
        }
        let together = project.items[d].1 != INJECTED && project.items[d].0 == module;
        if kind == INJECTED || !(together || item_reaches(&onward, d, x)) {
            return Err(format!("item {x} stands before {d}, which it needs"));
        }
    }
    Ok(())
}

/// Over one or more needs.
fn item_reaches(onward: &[Vec<usize>], from: usize, to: usize) -> bool {
    let mut seen = vec![false; onward.len()];
    let mut ahead = vec![from];
    while let Some(x) = ahead.pop() {
        for &y in &onward[x] {
            if y == to {
                return true;
            }
            if !seen[y] {
                seen[y] = true;
                ahead.push(y);
            }
        }
    }
    false
}

/// "each kept item of a module follows all kept items of every module it
/// imports that doesn't reach it back".
fn imports(project: &Project, place: &[Option<usize>]) -> Result<(), String> {
    let reach = reaches(project);
    let mut first = vec![usize::MAX; project.modules];
    let mut last = vec![None; project.modules];
    for (row, &(module, _)) in project.items.iter().enumerate() {
        if let Some(at) = place[row] {
            first[module] = first[module].min(at);
            last[module] = last[module].max(Some(at));
        }
    }
    for &(m, n) in &project.imports {
        let back = reach[n] >> m & 1 == 1;
        if !back && last[n].is_some_and(|at| at > first[m]) {
            return Err(format!("module {m} has items before those of {n}"));
        }
    }
    Ok(())
}
