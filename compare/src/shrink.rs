//! Makes a failing project small: takes away rows, modules, items, needs and
//! circles as long as it still fails.

use crate::plain::Project;

/// Answers whether a smaller project still fails.
pub type StillFails<'a> = &'a mut dyn FnMut(&Project) -> bool;

/// The smallest failing project that is found by taking things away.
pub fn shrink(project: Project, still_fails: StillFails) -> Project {
    let mut smallest = project;
    loop {
        let before = smallest.clone();
        take_away(&mut smallest, still_fails);
        simplify(&mut smallest, still_fails);
        if smallest == before {
            return smallest;
        }
    }
}

/// Takes `changed` where it still fails.
fn accept(smallest: &mut Project, changed: Project, still_fails: StillFails) -> bool {
    if changed == *smallest || !still_fails(&changed) {
        return false;
    }
    *smallest = changed;
    true
}

fn take_away(smallest: &mut Project, still_fails: StillFails) {
    take_parts(smallest, still_fails, |p| p.needs.len(), without_needs);
    take_parts(smallest, still_fails, |p| p.items.len(), without_items);
    take_parts(smallest, still_fails, |p| p.circles.len(), without_lists);
    take_parts(smallest, still_fails, |p| p.imports.len(), without_imports);
    take_parts(smallest, still_fails, |p| p.modules, without_modules);
    take_members(smallest, still_fails);
}

/// Takes away runs of things, long runs first.
fn take_parts(
    smallest: &mut Project,
    still_fails: StillFails,
    number: fn(&Project) -> usize,
    without: fn(&Project, usize, usize) -> Project,
) {
    let mut length = number(smallest);
    while length > 0 {
        let mut from = number(smallest).saturating_sub(length);
        loop {
            let to = (from + length).min(number(smallest));
            if from < to {
                accept(smallest, without(smallest, from, to), still_fails);
            }
            if from == 0 {
                break;
            }
            from = from.saturating_sub(length);
        }
        length /= 2;
    }
}

fn without_needs(project: &Project, from: usize, to: usize) -> Project {
    let mut changed = project.clone();
    changed.needs.drain(from..to);
    changed
}

fn without_imports(project: &Project, from: usize, to: usize) -> Project {
    let mut changed = project.clone();
    changed.imports.drain(from..to);
    changed
}

fn without_lists(project: &Project, from: usize, to: usize) -> Project {
    let mut changed = project.clone();
    changed.circles.drain(from..to);
    changed
}

/// The number after the numbers from..to are taken away.
fn renumbered(n: usize, from: usize, to: usize) -> Option<usize> {
    if n < from {
        Some(n)
    } else if n < to {
        None
    } else {
        Some(n - (to - from))
    }
}

fn without_items(project: &Project, from: usize, to: usize) -> Project {
    let mut changed = project.clone();
    changed.items.drain(from..to);
    changed.needs = project
        .needs
        .iter()
        .filter_map(|&(x, d, weight)| {
            Some((renumbered(x, from, to)?, renumbered(d, from, to)?, weight))
        })
        .collect();
    changed
}

fn without_modules(project: &Project, from: usize, to: usize) -> Project {
    if to - from >= project.modules {
        return project.clone();
    }
    let mut changed = project.clone();
    for item in (0..project.items.len()).rev() {
        if (from..to).contains(&project.items[item].0) {
            changed = without_items(&changed, item, item + 1);
        }
    }
    for row in &mut changed.items {
        row.0 = renumbered(row.0, from, to).expect("its items are gone");
    }
    let ends =
        |&(a, b): &(usize, usize)| Some((renumbered(a, from, to)?, renumbered(b, from, to)?));
    changed.imports = project.imports.iter().filter_map(ends).collect();
    for list in &mut changed.circles {
        *list = list
            .iter()
            .filter_map(|&m| renumbered(m, from, to))
            .collect();
    }
    changed.modules -= to - from;
    changed.entry = renumbered(project.entry, from, to).unwrap_or(0);
    changed
}

fn take_members(smallest: &mut Project, still_fails: StillFails) {
    for list in (0..smallest.circles.len()).rev() {
        for member in (0..smallest.circles[list].len()).rev() {
            let mut changed = smallest.clone();
            changed.circles[list].remove(member);
            accept(smallest, changed, still_fails);
        }
    }
}

/// Entry 0, lower kinds, weight Always, rows in other modules.
fn simplify(smallest: &mut Project, still_fails: StillFails) {
    let mut changed = smallest.clone();
    changed.entry = 0;
    accept(smallest, changed, still_fails);
    for item in 0..smallest.items.len() {
        for kind in 0..smallest.items[item].1 {
            let mut changed = smallest.clone();
            changed.items[item].1 = kind;
            if accept(smallest, changed, still_fails) {
                break;
            }
        }
        for module in 0..smallest.items[item].0 {
            let mut changed = smallest.clone();
            changed.items[item].0 = module;
            if accept(smallest, changed, still_fails) {
                break;
            }
        }
    }
    for need in 0..smallest.needs.len() {
        let mut changed = smallest.clone();
        changed.needs[need].2 = 0;
        accept(smallest, changed, still_fails);
    }
}

/// The smallest failing byte string that is found by taking bytes away and by
/// lowering single ones. For strings that are no project.
pub fn shrink_bytes(bytes: Vec<u8>, still_fails: &mut dyn FnMut(&[u8]) -> bool) -> Vec<u8> {
    let mut smallest = bytes;
    loop {
        let before = smallest.clone();
        take_bytes(&mut smallest, still_fails);
        lower_bytes(&mut smallest, still_fails);
        if smallest == before {
            return smallest;
        }
    }
}

/// Takes away runs of bytes, long runs first, the last first.
fn take_bytes(smallest: &mut Vec<u8>, still_fails: &mut dyn FnMut(&[u8]) -> bool) {
    let mut length = smallest.len();
    while length > 0 {
        let mut end = smallest.len();
        while end >= length {
            let mut changed = smallest.clone();
            changed.drain(end - length..end);
            if still_fails(&changed) {
                *smallest = changed;
            }
            end -= length;
        }
        length /= 2;
    }
}

fn lower_bytes(smallest: &mut [u8], still_fails: &mut dyn FnMut(&[u8]) -> bool) {
    for at in 0..smallest.len() {
        let old = smallest[at];
        for value in [0, 1, old / 2, old.saturating_sub(1)] {
            if value < smallest[at] {
                let mut changed = smallest.to_vec();
                changed[at] = value;
                if still_fails(&changed) {
                    smallest[at] = value;
                    break;
                }
            }
        }
    }
}

/// The number of things in a project, to tell which of two is smaller.
pub fn weight(project: &Project) -> usize {
    project.modules
        + project.items.len()
        + project.imports.len()
        + project.circle_bytes()
        + project.needs.len()
}

/// The project's bytes in hexadecimal.
pub fn hex(bytes: &[u8]) -> String {
    let pairs: Vec<String> = bytes.iter().map(|b| format!("{b:02x}")).collect();
    pairs.join(" ")
}

/// The project as rows.
pub fn rows(project: &Project) -> String {
    let items: Vec<String> = project
        .items
        .iter()
        .map(|(module, kind)| format!("({module},{kind})"))
        .collect();
    let imports: Vec<String> = project
        .imports
        .iter()
        .map(|(a, b)| format!("{a}→{b}"))
        .collect();
    let circles: Vec<String> = project.circles.iter().map(|c| format!("{c:?}")).collect();
    let needs: Vec<String> = project
        .needs
        .iter()
        .map(|(x, d, weight)| format!("{x}→{d} {}", ["Always", "Maybe"][*weight as usize]))
        .collect();
    format!(
        "modules {}, entry {}\nitems {}\nimports {}\ncircles {}\nneeds {}\n",
        project.modules,
        project.entry,
        items.join(" "),
        imports.join(" "),
        circles.join(" "),
        needs.join(", "),
    )
}
