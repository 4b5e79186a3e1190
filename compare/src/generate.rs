//! Projects to compare on: their bytes, random accepted ones of all sizes,
//! damaged copies and random byte strings. Everything follows from a seed.

use crate::plain::{self, Project};

/// A small generator of random numbers (splitmix64).
#[derive(Clone, Debug)]
pub struct Rng(u64);

impl Rng {
    pub fn new(seed: u64) -> Rng {
        Rng(seed)
    }

    /// One generator for each number of a run, so that a single project of a
    /// long run can be made again.
    pub fn nth(seed: u64, n: u64) -> Rng {
        let mut rng = Rng(seed ^ n.wrapping_mul(0xd134_2543_de82_ef95));
        rng.next();
        rng
    }

    #[allow(clippy::should_implement_trait)]
    pub fn next(&mut self) -> u64 {
        self.0 = self.0.wrapping_add(0x9e37_79b9_7f4a_7c15);
        let mut z = self.0;
        z = (z ^ (z >> 30)).wrapping_mul(0xbf58_476d_1ce4_e5b9);
        z = (z ^ (z >> 27)).wrapping_mul(0x94d0_49bb_1331_11eb);
        z ^ (z >> 31)
    }

    /// A number below n; 0 where n is 0.
    pub fn below(&mut self, n: usize) -> usize {
        ((self.next() >> 32).wrapping_mul(n as u64) >> 32) as usize
    }

    /// A number from low to high, both included.
    pub fn within(&mut self, low: usize, high: usize) -> usize {
        low + self.below(high - low + 1)
    }

    /// True in `part` of `whole` cases.
    pub fn chance(&mut self, part: usize, whole: usize) -> bool {
        self.below(whole) < part
    }

    pub fn shuffle<T>(&mut self, list: &mut [T]) {
        for i in (1..list.len()).rev() {
            list.swap(i, self.below(i + 1));
        }
    }
}

impl Project {
    /// A project without rows.
    pub fn empty(modules: usize) -> Project {
        Project {
            modules,
            entry: 0,
            items: Vec::new(),
            imports: Vec::new(),
            circles: Vec::new(),
            needs: Vec::new(),
        }
    }

    /// The one layout of document 01.
    pub fn to_bytes(&self) -> Vec<u8> {
        let mut items = Vec::new();
        for &(module, kind) in &self.items {
            items.extend([module as u8, kind]);
        }
        let mut imports = Vec::new();
        for &(importer, imported) in &self.imports {
            imports.extend([importer as u8, imported as u8]);
        }
        let mut circles = Vec::new();
        for list in &self.circles {
            circles.push(list.len() as u8);
            circles.extend(list.iter().map(|&m| m as u8));
        }
        let mut needs = Vec::new();
        for &(x, d, weight) in &self.needs {
            needs.extend([x as u8, d as u8, weight]);
        }
        join(
            [1, self.modules as u8, self.entry as u8, 0],
            [&items, &imports, &circles, &needs],
        )
    }

    /// The length of the circles section.
    pub fn circle_bytes(&self) -> usize {
        self.circles.iter().map(|list| 1 + list.len()).sum()
    }

    /// The number of different import rows.
    pub fn different_imports(&self) -> usize {
        let mut rows = self.imports.clone();
        rows.sort_unstable();
        rows.dedup();
        rows.len()
    }

    /// The premise of demand 3: the listed circles tie any two different
    /// modules exactly when each reaches the other by imports.
    pub fn meets_premise(&self) -> bool {
        let reach = reaches(self);
        let ties = ties(self);
        let pairs = (0..self.modules).flat_map(|m| (0..m).map(move |n| (m, n)));
        pairs.into_iter().all(|(m, n)| {
            let tied = ties[m] >> n & 1 == 1;
            let both = reach[m] >> n & reach[n] >> m & 1 == 1;
            tied == both
        })
    }
}

/// Head, pairs and sections as one byte string.
fn join(head: [u8; 4], sections: [&[u8]; 4]) -> Vec<u8> {
    let mut bytes = head.to_vec();
    let mut offset = 36u32;
    for section in sections {
        bytes.extend(offset.to_le_bytes());
        bytes.extend((section.len() as u32).to_le_bytes());
        offset += section.len() as u32;
    }
    for section in sections {
        bytes.extend(section);
    }
    bytes
}

/// For each module the set, as bits, of those that it reaches by one or more
/// imports.
pub fn reaches(project: &Project) -> Vec<u64> {
    let mut reach = vec![0u64; project.modules];
    for &(importer, imported) in &project.imports {
        reach[importer] |= 1 << imported;
    }
    close(&mut reach);
    reach
}

/// For each module the set of those tied to it by lists.
fn ties(project: &Project) -> Vec<u64> {
    let mut ties = vec![0u64; project.modules];
    for list in &project.circles {
        let members = list.iter().fold(0u64, |set, &m| set | 1 << m);
        for &m in list {
            ties[m] |= members;
        }
    }
    close(&mut ties);
    ties
}

/// Adds what is reached over further steps.
fn close(rows: &mut [u64]) {
    for middle in 0..rows.len() {
        let beyond = rows[middle];
        for row in rows.iter_mut() {
            if *row >> middle & 1 == 1 {
                *row |= beyond;
            }
        }
    }
}

/// The sets of two or more modules that reach one another.
pub fn classes(project: &Project) -> Vec<Vec<usize>> {
    let reach = reaches(project);
    let mut seen = 0u64;
    let mut found = Vec::new();
    for m in 0..project.modules {
        if seen >> m & 1 == 1 {
            continue;
        }
        let with_m = |&n: &usize| n == m || (reach[m] >> n & reach[n] >> m & 1 == 1);
        let class: Vec<usize> = (0..project.modules).filter(with_m).collect();
        for &n in &class {
            seen |= 1 << n;
        }
        if class.len() > 1 {
            found.push(class);
        }
    }
    found
}

/// How many of everything a project has at most.
#[derive(Clone, Copy, Debug)]
pub struct Size {
    pub modules: usize,
    pub items: usize,
    pub imports: usize,
    pub circle_bytes: usize,
    pub needs: usize,
}

pub const TINY: Size = Size {
    modules: 3,
    items: 6,
    imports: 5,
    circle_bytes: 12,
    needs: 8,
};
pub const SMALL: Size = Size {
    modules: 7,
    items: 18,
    imports: 14,
    circle_bytes: 30,
    needs: 40,
};
pub const MIDDLE: Size = Size {
    modules: 20,
    items: 70,
    imports: 60,
    circle_bytes: 120,
    needs: 250,
};
pub const LARGE: Size = Size {
    modules: 64,
    items: 256,
    imports: 512,
    circle_bytes: 512,
    needs: 2_048,
};

/// A random accepted project: many small ones, few large ones.
pub fn project(rng: &mut Rng) -> Project {
    let size = match rng.below(100) {
        0..=34 => TINY,
        35..=79 => SMALL,
        80..=95 => MIDDLE,
        _ => LARGE,
    };
    sized_project(rng, size)
}

/// A random accepted project within a size.
pub fn sized_project(rng: &mut Rng, size: Size) -> Project {
    let modules = match rng.below(8) {
        0 | 1 => size.modules,
        2 => size.modules.min(2),
        _ => rng.within(1, size.modules),
    };
    let mut project = Project::empty(modules);
    if rng.chance(1, 2) {
        project.entry = rng.below(modules);
    }
    if rng.chance(1, 3) {
        add_ring(rng, &mut project);
    }
    add_imports(rng, &mut project, size.imports);
    add_circles(rng, &mut project, size.circle_bytes);
    add_items(rng, &mut project, size.items);
    add_needs(rng, &mut project, size.needs);
    project
}

/// A project of the largest size in every section.
pub fn largest_project(rng: &mut Rng) -> Project {
    let mut project = Project::empty(64);
    project.entry = rng.below(64);
    while project.imports.len() < 512 {
        let row = random_import(rng, 64);
        project.imports.push(row);
    }
    add_circles(rng, &mut project, 512);
    while project.circle_bytes() < 512 {
        project.circles.push(Vec::new());
    }
    for _ in 0..256 {
        let kind = rng.below(6) as u8;
        project.items.push((rng.below(64), kind));
    }
    while project.needs.len() < 2_048 {
        let row = (rng.below(256), rng.below(256), rng.below(2) as u8);
        if row.0 != row.1 {
            project.needs.push(row);
        }
    }
    project
}

/// A count that is often small against its limit and sometimes the limit.
fn count(rng: &mut Rng, limit: usize) -> usize {
    match rng.below(8) {
        0 => 0,
        1 => limit,
        2..=4 => rng.below(limit + 1),
        _ => rng.below(limit / 2 + 1),
    }
}

fn random_import(rng: &mut Rng, modules: usize) -> (usize, usize) {
    loop {
        let row = (rng.below(modules), rng.below(modules));
        if row.0 != row.1 {
            return row;
        }
    }
}

/// Imports that run through some of the modules, or all, and back.
fn add_ring(rng: &mut Rng, project: &mut Project) {
    let mut ring: Vec<usize> = (0..project.modules).collect();
    rng.shuffle(&mut ring);
    if rng.chance(1, 2) {
        ring.truncate(rng.below(project.modules) + 1);
    }
    for i in 1..ring.len() {
        project.imports.push((ring[i - 1], ring[i]));
    }
    if ring.len() > 1 {
        project.imports.push((ring[ring.len() - 1], ring[0]));
    }
}

/// Import rows: at random, in no circle, or with few circles; some repeated.
fn add_imports(rng: &mut Rng, project: &mut Project, limit: usize) {
    let modules = project.modules;
    if modules < 2 {
        return;
    }
    let mut rank: Vec<usize> = (0..modules).collect();
    rng.shuffle(&mut rank);
    let backward = [0, 0, 1, 3, 10][rng.below(5)];
    for _ in project.imports.len()..count(rng, limit) {
        let (mut a, mut b) = random_import(rng, modules);
        if rank[a] > rank[b] && !rng.chance(backward, 10) {
            (a, b) = (b, a);
        }
        project.imports.push((a, b));
        if rng.chance(1, 12) && project.imports.len() < limit {
            let again = project.imports[rng.below(project.imports.len())];
            project.imports.push(again);
        }
    }
    project.imports.truncate(limit);
    if rng.chance(1, 2) {
        rng.shuffle(&mut project.imports);
    }
}

/// Circles: none, random lists, or lists that meet the premise of demand 3,
/// as they are or a little spoilt.
fn add_circles(rng: &mut Rng, project: &mut Project, limit: usize) {
    match rng.below(10) {
        0 => {}
        1 | 2 => random_lists(rng, project, limit),
        3 | 4 => short_lists(rng, project, limit),
        5 => {
            premise_lists(rng, project, limit);
            spoil_lists(rng, project, limit);
        }
        _ => premise_lists(rng, project, limit),
    }
}

fn random_lists(rng: &mut Rng, project: &mut Project, limit: usize) {
    let section = count(rng, limit);
    let longest = rng.within(1, project.modules + 2);
    let mut left = section;
    while left > 0 {
        let members = rng.below(longest + 1).min(left - 1).min(255);
        let list = (0..members).map(|_| rng.below(project.modules)).collect();
        project.circles.push(list);
        left -= 1 + members;
        if rng.chance(1, 10) {
            break;
        }
    }
}

/// Lists of one or two members.
fn short_lists(rng: &mut Rng, project: &mut Project, limit: usize) {
    for _ in 0..rng.within(1, project.modules) {
        let members = rng.within(1, 2);
        if project.circle_bytes() + 1 + members <= limit {
            let list = (0..members).map(|_| rng.below(project.modules)).collect();
            project.circles.push(list);
        }
    }
}

/// One list for each class, members in random order; sometimes split into
/// overlapping lists, with repeated members, lists of one, and lists of none.
fn premise_lists(rng: &mut Rng, project: &mut Project, limit: usize) {
    let plainly = rng.chance(1, 2);
    for mut class in classes(project) {
        rng.shuffle(&mut class);
        if plainly {
            project.circles.push(class);
        } else {
            let lists = split_list(rng, &class);
            project.circles.extend(lists);
        }
    }
    if !plainly {
        for _ in 0..rng.below(3) {
            project.circles.push(Vec::new());
            project.circles.push(vec![rng.below(project.modules)]);
        }
        rng.shuffle(&mut project.circles);
    }
    if project.circle_bytes() > limit.max(96) {
        project.circles = classes(project);
        rng.shuffle(&mut project.circles);
    }
}

/// Lists that tie the members of one class: each new member stands in a list
/// with one that was there before.
fn split_list(rng: &mut Rng, class: &[usize]) -> Vec<Vec<usize>> {
    let mut lists = Vec::new();
    let mut tied = vec![class[0]];
    for part in class[1..].chunks(rng.within(1, class.len())) {
        let mut list = part.to_vec();
        list.push(tied[rng.below(tied.len())]);
        while rng.chance(1, 4) && list.len() < 255 {
            list.push(class[rng.below(tied.len())]);
        }
        tied.extend(part);
        rng.shuffle(&mut list);
        lists.push(list);
    }
    lists
}

/// Takes a list away, takes a member away, or adds one.
fn spoil_lists(rng: &mut Rng, project: &mut Project, limit: usize) {
    if project.circles.is_empty() {
        if project.modules > 1 && limit > 2 {
            let (a, b) = random_import(rng, project.modules);
            project.circles.push(vec![a, b]);
        }
        return;
    }
    let at = rng.below(project.circles.len());
    match rng.below(3) {
        0 => {
            project.circles.remove(at);
        }
        1 => {
            project.circles[at].pop();
        }
        _ => {
            if project.circle_bytes() < limit {
                project.circles[at].push(rng.below(project.modules));
            }
        }
    }
}

/// Kinds with their shares, for different sorts of projects.
const KIND_SHARES: [[usize; 6]; 6] = [
    [10, 4, 3, 3, 4, 1],
    [10, 0, 0, 0, 0, 0],
    [6, 0, 0, 0, 4, 0],
    [1, 3, 3, 4, 0, 0],
    [0, 0, 0, 0, 5, 1],
    [1, 1, 1, 1, 1, 1],
];

fn random_kind(rng: &mut Rng, shares: &[usize; 6]) -> u8 {
    let mut at = rng.below(shares.iter().sum());
    for (kind, &share) in shares.iter().enumerate() {
        if at < share {
            return kind as u8;
        }
        at -= share;
    }
    unreachable!()
}

/// Item rows: modules in turn or mixed, some modules without items, some with
/// injected items only.
fn add_items(rng: &mut Rng, project: &mut Project, limit: usize) {
    let shares = KIND_SHARES[rng.below(KIND_SHARES.len())];
    let homes: Vec<usize> = (0..project.modules).filter(|_| rng.chance(4, 5)).collect();
    if homes.is_empty() {
        return;
    }
    let only_injected: Vec<bool> = (0..project.modules).map(|_| rng.chance(1, 8)).collect();
    for _ in 0..count(rng, limit) {
        let module = homes[rng.below(homes.len())];
        let kind = match only_injected[module] {
            true => plain::INJECTED,
            false => random_kind(rng, &shares),
        };
        project.items.push((module, kind));
    }
    if rng.chance(1, 3) {
        project.items.sort_by_key(|row| row.0);
    }
}

/// How the needs of a project are drawn.
struct NeedStyle {
    /// Of 10 needs, those that may run in a circle.
    backward: usize,
    /// Of 10 needs, those that stay in one module.
    inside: usize,
    /// Of 10 needs, those that repeat a pair.
    again: usize,
    /// Needs from one injected item to another run one way only.
    injected_in_turn: bool,
}

fn add_needs(rng: &mut Rng, project: &mut Project, limit: usize) {
    let items = project.items.len();
    if items < 2 {
        return;
    }
    let style = NeedStyle {
        backward: [0, 0, 1, 3, 5][rng.below(5)],
        inside: [0, 1, 3, 8][rng.below(4)],
        again: [0, 0, 1, 4][rng.below(4)],
        injected_in_turn: !rng.chance(1, 6),
    };
    let mut rank: Vec<usize> = (0..items).collect();
    rng.shuffle(&mut rank);
    let per_item = rng.within(1, 8);
    for _ in 0..count(rng, limit.min(per_item * items)) {
        let row = random_need(rng, project, &style, &rank);
        project.needs.push(row);
    }
}

fn random_need(
    rng: &mut Rng,
    project: &Project,
    style: &NeedStyle,
    rank: &[usize],
) -> (usize, usize, u8) {
    let weight = rng.below(2) as u8;
    if !project.needs.is_empty() && rng.chance(style.again, 10) {
        let (x, d, _) = project.needs[rng.below(project.needs.len())];
        return (x, d, weight);
    }
    let items = project.items.len();
    let mut x = rng.below(items);
    let mut d = other_item(rng, items, x);
    if rng.chance(style.inside, 10) {
        // A few tries for one of the same module.
        for _ in 0..4 {
            if project.items[d].0 != project.items[x].0 {
                d = other_item(rng, items, x);
            }
        }
    }
    let both_injected =
        project.items[x].1 == plain::INJECTED && project.items[d].1 == plain::INJECTED;
    let turned = rank[x] < rank[d];
    if turned && ((both_injected && style.injected_in_turn) || !rng.chance(style.backward, 10)) {
        (x, d) = (d, x);
    }
    (x, d, weight)
}

fn other_item(rng: &mut Rng, items: usize, x: usize) -> usize {
    (x + 1 + rng.below(items - 1)) % items
}

/// A damaged copy of project bytes: bytes changed, cut off or added, or the
/// offsets and lengths changed by small amounts.
pub fn damage(rng: &mut Rng, bytes: &mut Vec<u8>) {
    for _ in 0..[1, 1, 2, 3][rng.below(4)] {
        match rng.below(10) {
            0 if !bytes.is_empty() => {
                let bit = rng.below(bytes.len() * 8);
                bytes[bit / 8] ^= 1 << (bit % 8);
            }
            1 => bytes.truncate(rng.below(bytes.len() + 1)),
            2 => {
                for _ in 0..rng.within(1, 4) {
                    bytes.push(rng.below(256) as u8);
                }
            }
            3 => change_pair(rng, bytes),
            4 | 5 => move_border(rng, bytes),
            _ => change_byte(rng, bytes),
        }
    }
}

fn change_byte(rng: &mut Rng, bytes: &mut [u8]) {
    // In the head, in the pairs, or in a section.
    let (from, to) = [(0, 4), (4, 36), (36, bytes.len()), (36, bytes.len())][rng.below(4)];
    if from >= to || to > bytes.len() {
        return;
    }
    let at = rng.within(from, to - 1);
    bytes[at] = match rng.below(4) {
        0 => rng.below(256) as u8,
        1 => rng.below(8) as u8,
        2 => bytes[at].wrapping_add(1),
        _ => bytes[at].wrapping_sub(1),
    };
}

/// Adds a small amount to one offset or length.
fn change_pair(rng: &mut Rng, bytes: &mut [u8]) {
    let at = 4 + 4 * rng.below(8);
    add_at(bytes, at, rng.within(0, 6) as i64 - 3);
}

/// Moves the border of two sections by a small amount: the pairs still keep
/// their rule, most often.
fn move_border(rng: &mut Rng, bytes: &mut [u8]) {
    let second = rng.within(1, 3);
    let amount = rng.within(0, 6) as i64 - 3;
    add_at(bytes, 4 + 8 * (second - 1) + 4, amount);
    add_at(bytes, 4 + 8 * second, amount);
    add_at(bytes, 4 + 8 * second + 4, -amount);
}

fn add_at(bytes: &mut [u8], at: usize, amount: i64) {
    if let Some(place) = bytes.get_mut(at..at + 4) {
        let old = u32::from_le_bytes([place[0], place[1], place[2], place[3]]);
        let new = (old as i64).wrapping_add(amount) as u32;
        place.copy_from_slice(&new.to_le_bytes());
    }
}

/// A random byte string: of any content, with a head that is often right, or
/// with pairs that keep their rule over random sections.
pub fn byte_string(rng: &mut Rng) -> Vec<u8> {
    match rng.below(4) {
        0 => random_bytes(rng, 80),
        1 => {
            let mut bytes = random_bytes(rng, 120);
            for (at, value) in [(0, 1), (3, 0), (4, 36)] {
                if let Some(byte) = bytes.get_mut(at) {
                    *byte = value;
                }
            }
            bytes
        }
        _ => random_sections(rng),
    }
}

fn random_bytes(rng: &mut Rng, limit: usize) -> Vec<u8> {
    let length = rng.below(limit + 1);
    (0..length).map(|_| rng.next() as u8).collect()
}

/// Sections of random small bytes, with lengths around the limits now and
/// then, under pairs that keep their rule.
fn random_sections(rng: &mut Rng) -> Vec<u8> {
    let around = rng.chance(1, 8);
    let mut sections: [Vec<u8>; 4] = Default::default();
    for (section, limit) in sections.iter_mut().zip([512, 1_024, 512, 6_144]) {
        let length = match around {
            true => rng.within(limit - 3, limit + 3),
            false => rng.below(14),
        };
        let below = [2, 4, 6, 256][rng.below(4)];
        *section = (0..length).map(|_| rng.below(below) as u8).collect();
    }
    let modules = [rng.below(8), rng.within(60, 68), rng.below(256)][rng.below(3)];
    let entry = rng.below(modules + 2);
    let head = [1, modules as u8, entry as u8, 0];
    let [items, imports, circles, needs] = &sections;
    join(head, [items, imports, circles, needs])
}
