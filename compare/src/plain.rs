//! Document 01 with the changes of document 02, in plain Rust: written from
//! the papers and not from the original. Above each piece stands the sentence
//! that it renders.
//!
//! Nothing here is fast on purpose: it is to be checked by reading.

use std::collections::VecDeque;
use std::ops::Range;

/// "list full: a visit leaves over 1,024 module ... entries".
pub const MODULE_LIST: usize = 1_024;
/// "list full: a visit leaves over ... 16,384 item entries".
pub const ITEM_LIST: usize = 16_384;
/// Document 02, item 13: "Allowance 0 means 20,000."
pub const USUAL_ALLOWANCE: u32 = 20_000;

/// "Kinds: 0 plain, 1 function, 2 class without superclass, 3 class with one,
/// 4 injected, 5 empty statement."
pub const PLAIN: u8 = 0;
pub const FUNCTION: u8 = 1;
pub const CLASS: u8 = 2;
pub const SUBCLASS: u8 = 3;
pub const INJECTED: u8 = 4;
pub const EMPTY: u8 = 5;

/// "weight (0 Always, 1 Maybe)".
pub const ALWAYS: u8 = 0;
pub const MAYBE: u8 = 1;

/// "Answer (0 for accepted), kept items, groups, module visits and item
/// visits are returned".
pub type Numbers = [u32; 5];

/// The rows of a project.
#[derive(Clone, Debug, PartialEq, Eq)]
pub struct Project {
    pub modules: usize,
    pub entry: usize,
    /// Module and kind. "The row's position is the item number."
    pub items: Vec<(usize, u8)>,
    /// Importer and imported.
    pub imports: Vec<(usize, usize)>,
    pub circles: Vec<Vec<usize>>,
    /// Item, item it depends on, weight.
    pub needs: Vec<(usize, usize, u8)>,
}

// ---------------------------------------------------------------------------
// Project bytes, and numbers 1 to 9
// ---------------------------------------------------------------------------

/// "Checked in the table's order": the project, or the first number of 1 to 9
/// that turns it down.
pub fn read(bytes: &[u8]) -> Result<Project, u32> {
    // 1, stub: "under 36 bytes".
    if bytes.len() < 36 {
        return Err(1);
    }
    // 2, foreign: "edition not 1, or byte 3 not 0".
    if bytes[0] != 1 || bytes[3] != 0 {
        return Err(2);
    }
    // 3, misplaced: "a pair breaks the rule above".
    let [items, imports, circles, needs] = sections(bytes).ok_or(3u32)?;
    // 4, ragged: "items or imports odd in length, needs not a multiple of 3".
    if items.len() % 2 != 0 || imports.len() % 2 != 0 || needs.len() % 3 != 0 {
        return Err(4);
    }
    // 5, outsize: "M, entry or a section outside its limit".
    let modules = bytes[1] as usize;
    let entry = bytes[2] as usize;
    if !(1..=64).contains(&modules)
        || entry >= modules
        || items.len() / 2 > 256
        || imports.len() / 2 > 512
        || circles.len() > 512
        || needs.len() / 3 > 2_048
    {
        return Err(5);
    }
    Ok(Project {
        modules,
        entry,
        items: read_items(items, modules)?,
        imports: read_imports(imports, modules)?,
        circles: read_circles(circles, modules)?,
        needs: read_needs(needs, items.len() / 2)?,
    })
}

/// "Then four pairs of offset and length, 32 bits each, sorted by offset:
/// items, imports, circles, needs. The first offset is 36, each next one is
/// the previous offset plus length, and the last section ends the input."
fn sections(bytes: &[u8]) -> Option<[&[u8]; 4]> {
    let mut found: [&[u8]; 4] = [&[]; 4];
    let mut due = 36u64;
    for (i, section) in found.iter_mut().enumerate() {
        let offset = number(bytes, 4 + 8 * i) as u64;
        let length = number(bytes, 8 + 8 * i) as u64;
        let end = offset + length;
        if offset != due || end > bytes.len() as u64 {
            return None;
        }
        // "Each section is handed on as that part of the project's bytes."
        *section = &bytes[offset as usize..end as usize];
        due = end;
    }
    (due == bytes.len() as u64).then_some(found)
}

/// "Numbers of several bytes are little-endian."
fn number(bytes: &[u8], at: usize) -> u32 {
    u32::from_le_bytes(bytes[at..at + 4].try_into().unwrap())
}

/// 6, bad item: "module not below M, or kind above 5".
fn read_items(section: &[u8], modules: usize) -> Result<Vec<(usize, u8)>, u32> {
    let mut rows = Vec::new();
    for row in section.chunks_exact(2) {
        let (module, kind) = (row[0] as usize, row[1]);
        if module >= modules || kind > 5 {
            return Err(6);
        }
        rows.push((module, kind));
    }
    Ok(rows)
}

/// 7, bad import: "an end not below M, or equal ends".
fn read_imports(section: &[u8], modules: usize) -> Result<Vec<(usize, usize)>, u32> {
    let mut rows = Vec::new();
    for row in section.chunks_exact(2) {
        let (importer, imported) = (row[0] as usize, row[1] as usize);
        if importer >= modules || imported >= modules || importer == imported {
            return Err(7);
        }
        rows.push((importer, imported));
    }
    Ok(rows)
}

/// 8, bad circle: "a list passes the section's end, or a member not below M".
/// "lists, each a count byte and that many module numbers. A count of 0 and a
/// repeated member are allowed."
fn read_circles(section: &[u8], modules: usize) -> Result<Vec<Vec<usize>>, u32> {
    let mut lists = Vec::new();
    let mut at = 0;
    while at < section.len() {
        let count = section[at] as usize;
        let end = at + 1 + count;
        if end > section.len() {
            return Err(8);
        }
        let list: Vec<usize> = section[at + 1..end].iter().map(|&m| m as usize).collect();
        if list.iter().any(|&m| m >= modules) {
            return Err(8);
        }
        lists.push(list);
        at = end;
    }
    Ok(lists)
}

/// 9, bad need: "an end not an item, equal ends, or weight above 1".
fn read_needs(section: &[u8], items: usize) -> Result<Vec<(usize, usize, u8)>, u32> {
    let mut rows = Vec::new();
    for row in section.chunks_exact(3) {
        let (x, d, weight) = (row[0] as usize, row[1] as usize, row[2]);
        if x >= items || d >= items || x == d || weight > 1 {
            return Err(9);
        }
        rows.push((x, d, weight));
    }
    Ok(rows)
}

// ---------------------------------------------------------------------------
// Visits and the allowance
// ---------------------------------------------------------------------------

/// "Visits of both walks are counted against one allowance, and the count is
/// the number of entries taken off."
#[derive(Clone, Copy, Debug, PartialEq, Eq)]
pub struct Visits {
    pub allowance: u32,
    pub module: u32,
    pub item: u32,
}

impl Visits {
    /// "The allowance is 32 bits". Document 02, item 13: "Allowance 0 means
    /// 20,000."
    pub fn new(allowance: u32) -> Visits {
        let allowance = match allowance {
            0 => USUAL_ALLOWANCE,
            given => given,
        };
        Visits {
            allowance,
            module: 0,
            item: 0,
        }
    }

    /// 11, spent: "visits made equal the allowance and another is due".
    fn check_due(&self) -> Result<(), u32> {
        if self.module + self.item == self.allowance {
            return Err(11);
        }
        Ok(())
    }
}

/// 12, list full: "a visit leaves over 1,024 module or 16,384 item entries".
fn check_left(entries: usize, limit: usize) -> Result<(), u32> {
    if entries > limit {
        return Err(12);
    }
    Ok(())
}

// ---------------------------------------------------------------------------
// Circles of a module
// ---------------------------------------------------------------------------

/// Appends what is not there yet: "each once".
fn append_new(to: &mut Vec<usize>, from: impl IntoIterator<Item = usize>) {
    for m in from {
        if !to.contains(&m) {
            to.push(m);
        }
    }
}

/// "Following a module: note it as followed; gather, each once, the members of
/// every list holding it; then follow, in order, each gathered member not yet
/// noted and append what is new. ... A module in no list gathers nothing."
fn follow(circles: &[Vec<usize>], m: usize, noted: &mut Vec<usize>) -> Vec<usize> {
    noted.push(m);
    let mut gathered = Vec::new();
    for list in circles {
        if list.contains(&m) {
            append_new(&mut gathered, list.iter().copied());
        }
    }
    for member in gathered.clone() {
        if !noted.contains(&member) {
            let found = follow(circles, member, noted);
            append_new(&mut gathered, found);
        }
    }
    gathered
}

// ---------------------------------------------------------------------------
// Module walk
// ---------------------------------------------------------------------------

/// The different modules that m imports, in the order of their first rows.
fn imports_of(project: &Project, m: usize) -> Vec<usize> {
    let mut found = Vec::new();
    for &(importer, imported) in &project.imports {
        if importer == m {
            append_new(&mut found, [imported]);
        }
    }
    found
}

struct ModuleWalk<'a> {
    project: &'a Project,
    /// `imports[m]`: see `imports_of`.
    imports: Vec<Vec<usize>>,
    list: VecDeque<usize>,
    done: Vec<bool>,
    marked: Vec<bool>,
    groups: Vec<Vec<usize>>,
}

impl<'a> ModuleWalk<'a> {
    /// "The list starts as the entry, then 0 to M−1."
    fn new(project: &'a Project) -> Self {
        let mut list = VecDeque::from([project.entry]);
        list.extend(0..project.modules);
        ModuleWalk {
            project,
            imports: (0..project.modules)
                .map(|m| imports_of(project, m))
                .collect(),
            list,
            done: vec![false; project.modules],
            marked: vec![false; project.modules],
            groups: Vec::new(),
        }
    }

    fn undone_imports(&self, m: usize) -> Vec<usize> {
        let all = self.imports[m].iter().copied();
        all.filter(|&i| !self.done[i]).collect()
    }

    /// "find the undone imports, outside the circle, of its members, in member
    /// order, repeats kept".
    fn outside_imports(&self, circle: &[usize]) -> Vec<usize> {
        let mut found = Vec::new();
        for &member in circle {
            for i in self.undone_imports(member) {
                if !circle.contains(&i) {
                    found.push(i);
                }
            }
        }
        found
    }

    /// "m goes to the front, then m's undone imports before it, first import
    /// foremost".
    fn put_in_front(&mut self, m: usize, before: &[usize]) {
        self.list.push_front(m);
        for &i in before.iter().rev() {
            self.list.push_front(i);
        }
    }

    /// "A group makes its members done and clears all marks."
    fn make_group(&mut self, members: Vec<usize>) {
        for &member in &members {
            self.done[member] = true;
        }
        self.marked.fill(false);
        self.groups.push(members);
    }

    /// "A visit takes the front module m off."
    fn visit(&mut self) {
        let m = self.list.pop_front().expect("the list is not empty");
        // "1. m done: nothing."
        if self.done[m] {
            return;
        }
        // "2. No undone imports: group [m]."
        let undone = self.undone_imports(m);
        if undone.is_empty() {
            return self.make_group(vec![m]);
        }
        // "3. The gathered circle, reversed, is empty: m goes to the front,
        // then m's undone imports before it, first import foremost."
        let mut circle = follow(&self.project.circles, m, &mut Vec::new());
        circle.reverse();
        if circle.is_empty() {
            return self.put_in_front(m, &undone);
        }
        // "4. Otherwise find the undone imports, outside the circle, of its
        // members, in member order, repeats kept."
        let outside = self.outside_imports(&circle);
        if outside.is_empty() {
            // "None: the circle is a group."
            self.make_group(circle);
        } else if !self.marked[m] {
            // "Some, and m not marked: mark m, put m and then these in front
            // as in 3."
            self.marked[m] = true;
            self.put_in_front(m, &outside);
        } else {
            // "Some, and m marked: the circle with them appended, each once,
            // is a group."
            append_new(&mut circle, outside);
            self.make_group(circle);
        }
    }
}

/// The groups, or 11 or 12. "The walk ends when the list is empty."
pub fn groups_of(project: &Project, visits: &mut Visits) -> Result<Vec<Vec<usize>>, u32> {
    let mut walk = ModuleWalk::new(project);
    while !walk.list.is_empty() {
        visits.check_due()?;
        walk.visit();
        visits.module += 1;
        check_left(walk.list.len(), MODULE_LIST)?;
    }
    Ok(walk.groups)
}

// ---------------------------------------------------------------------------
// Paths
// ---------------------------------------------------------------------------

/// The needs of a group, between item numbers of that group, and P.
pub struct Paths {
    /// "neighbours stand in the order in which edges were first added".
    dependencies: Vec<Vec<usize>>,
    dependants: Vec<Vec<usize>>,
    /// `weight[x][d]`: "an edge added again ... takes the new weight".
    weight: Vec<Vec<u8>>,
    /// `p[x][y]`: P(x) holds y.
    p: Vec<Vec<bool>>,
}

impl Paths {
    pub fn new(items: usize) -> Paths {
        Paths {
            dependencies: vec![Vec::new(); items],
            dependants: vec![Vec::new(); items],
            weight: vec![vec![ALWAYS; items]; items],
            p: vec![vec![false; items]; items],
        }
    }

    pub fn holds(&self, x: usize, y: usize) -> bool {
        self.p[x][y]
    }

    /// "Adding a need x to y: the edge is added; if y is in P(x), no more."
    pub fn add_need(&mut self, x: usize, y: usize, weight: u8) {
        append_new(&mut self.dependencies[x], [y]);
        append_new(&mut self.dependants[y], [x]);
        self.weight[x][y] = weight;
        if self.p[x][y] {
            return;
        }
        // "Else y enters P(x), with all that y reaches except x;"
        self.p[x][y] = true;
        for z in reached(&self.dependencies, y) {
            if z != x {
                self.p[x][z] = true;
            }
        }
        // "and y enters P(z) for each z other than y that is x or reaches x."
        let mut sources = reached(&self.dependants, x);
        append_new(&mut sources, [x]);
        for z in sources {
            if z != y {
                self.p[z][y] = true;
            }
        }
    }
}

/// What `from` reaches over one or more edges.
fn reached(edges: &[Vec<usize>], from: usize) -> Vec<usize> {
    let mut seen = vec![false; edges.len()];
    let mut found = Vec::new();
    let mut ahead = vec![from];
    while let Some(x) = ahead.pop() {
        for &y in &edges[x] {
            if !seen[y] {
                seen[y] = true;
                found.push(y);
                ahead.push(y);
            }
        }
    }
    found
}

// ---------------------------------------------------------------------------
// Item walk
// ---------------------------------------------------------------------------

/// "Kind 5 is dropped, all others are kept." The kept rows of module m.
fn kept_rows(project: &Project, m: usize) -> Vec<usize> {
    let rows = 0..project.items.len();
    rows.filter(|&row| project.items[row].0 == m && project.items[row].1 != EMPTY)
        .collect()
}

/// "A group's modules, last member first, give their kept items; modules
/// already used or without kept items are passed over."
fn given_rows(project: &Project, group: &[usize], used: &mut [bool]) -> Vec<Vec<usize>> {
    let mut given = Vec::new();
    for &m in group.iter().rev() {
        let rows = kept_rows(project, m);
        if !used[m] && !rows.is_empty() {
            given.push(rows);
        }
        used[m] = true;
    }
    given
}

/// "A group of one module with no imports keeps its row order and makes no
/// item visits. Any other is sorted".
fn keeps_row_order(project: &Project, group: &[usize]) -> bool {
    group.len() == 1 && imports_of(project, group[0]).is_empty()
}

/// A sorted group's items: "uninjected items by module, then injected ones,
/// numbered from 0".
struct Split {
    /// The row of each number.
    rows: Vec<usize>,
    /// The kind of each number.
    kinds: Vec<u8>,
    /// "A module's range is its uninjected run, its start the run's first
    /// number, also where the run is empty."
    ranges: Vec<Range<usize>>,
    /// The numbers of the injected items.
    injected: Range<usize>,
}

impl Split {
    fn new(project: &Project, given: &[Vec<usize>]) -> Split {
        let is_injected = |row: &usize| project.items[*row].1 == INJECTED;
        let mut rows = Vec::new();
        let mut ranges = Vec::new();
        for module_rows in given {
            let start = rows.len();
            rows.extend(module_rows.iter().copied().filter(|r| !is_injected(r)));
            ranges.push(start..rows.len());
        }
        let uninjected = rows.len();
        for module_rows in given {
            rows.extend(module_rows.iter().copied().filter(is_injected));
        }
        Split {
            kinds: rows.iter().map(|&row| project.items[row].1).collect(),
            injected: uninjected..rows.len(),
            rows,
            ranges,
        }
    }

    /// The range holding x, if any.
    fn range_holding(&self, x: usize) -> Option<Range<usize>> {
        self.ranges.iter().find(|r| r.contains(&x)).cloned()
    }

    /// "The list starts as all starts; then, per start, the range holding it,
    /// if any; then the injected items."
    fn first_list(&self) -> VecDeque<usize> {
        let mut list = VecDeque::new();
        for range in &self.ranges {
            list.push_back(range.start);
        }
        for range in &self.ranges {
            if let Some(holding) = self.range_holding(range.start) {
                list.extend(holding);
            }
        }
        list.extend(self.injected.clone());
        list
    }

    /// "a graph of the group's kept items and, in row order, the needs whose
    /// two ends are among them".
    fn paths(&self, project: &Project) -> Paths {
        let mut number_of = vec![None; project.items.len()];
        for (number, &row) in self.rows.iter().enumerate() {
            number_of[row] = Some(number);
        }
        let mut paths = Paths::new(self.rows.len());
        for &(x, d, weight) in &project.needs {
            if let (Some(x), Some(d)) = (number_of[x], number_of[d]) {
                paths.add_need(x, d, weight);
            }
        }
        paths
    }
}

struct ItemWalk {
    split: Split,
    paths: Paths,
    list: VecDeque<usize>,
    placed: Vec<bool>,
    /// The numbers placed so far, in order.
    order: Vec<usize>,
    /// `moved[x][d]`: the pair (x, d) has moved.
    moved: Vec<Vec<bool>>,
}

impl ItemWalk {
    fn new(project: &Project, given: &[Vec<usize>]) -> ItemWalk {
        let split = Split::new(project, given);
        let items = split.rows.len();
        ItemWalk {
            paths: split.paths(project),
            list: split.first_list(),
            placed: vec![false; items],
            order: Vec::new(),
            moved: vec![vec![false; items]; items],
            split,
        }
    }

    /// "The walk ends when all are placed."
    fn ended(&self) -> bool {
        self.order.len() == self.split.rows.len()
    }

    fn place(&mut self, x: usize) {
        self.placed[x] = true;
        self.order.push(x);
    }

    /// "its unplaced injected dependants go to the front one by one".
    fn put_dependants_in_front(&mut self, x: usize) {
        for &dependant in &self.paths.dependants[x] {
            if !self.placed[dependant] && self.split.injected.contains(&dependant) {
                self.list.push_front(dependant);
            }
        }
    }

    /// "2. For each dependency d in order: skip it in x's range. If x is
    /// uninjected and P(d) holds x, skip it where the pair (x, d) has moved,
    /// else note that pair as moved, even if d is placed. Skip it if placed.
    /// The rest are open."
    fn open_dependencies(&mut self, x: usize) -> Vec<usize> {
        let range = self.split.range_holding(x);
        let injected = self.split.injected.contains(&x);
        let mut open = Vec::new();
        for &d in &self.paths.dependencies[x] {
            if range.as_ref().is_some_and(|r| r.contains(&d)) {
                continue;
            }
            if !injected && self.paths.holds(d, x) {
                if self.moved[x][d] {
                    continue;
                }
                self.moved[x][d] = true;
            }
            if self.placed[d] {
                continue;
            }
            open.push(d);
        }
        open
    }

    /// "3. Drop an open d if P(d) holds x and x is of kind 1 or 2, or of kind
    /// 3 with weight Maybe." P(d) has to hold x in both cases.
    fn is_dropped(&self, x: usize, d: usize) -> bool {
        let by_kind = match self.split.kinds[x] {
            FUNCTION | CLASS => true,
            SUBCLASS => self.paths.weight[x][d] == MAYBE,
            _ => false,
        };
        self.paths.holds(d, x) && by_kind
    }

    /// "find the first unplaced p below x in its range whose pair (x, p)
    /// hasn't moved".
    fn preceding(&self, x: usize) -> Option<usize> {
        let range = self.split.range_holding(x)?;
        (range.start..x).find(|&p| !self.placed[p] && !self.moved[x][p])
    }

    /// "A visit takes x off."
    fn visit(&mut self) {
        let x = self.list.pop_front().expect("unplaced items are listed");
        // "1. x placed: nothing."
        if self.placed[x] {
            return;
        }
        let open = self.open_dependencies(x);
        // "3. ... If any stay, x goes to the front, then these before it,
        // first foremost; the visit ends."
        let stay: Vec<usize> = open
            .into_iter()
            .filter(|&d| !self.is_dropped(x, d))
            .collect();
        if !stay.is_empty() {
            self.list.push_front(x);
            for &d in stay.iter().rev() {
                self.list.push_front(d);
            }
            return;
        }
        // "4. Injected x: its unplaced injected dependants go to the front one
        // by one; x is placed."
        if self.split.injected.contains(&x) {
            self.put_dependants_in_front(x);
            self.place(x);
            return;
        }
        // "5. Else find the first unplaced p below x in its range whose pair
        // (x, p) hasn't moved. If there is one: note it, put those dependants
        // in front, then x, then p. If none, x is placed."
        match self.preceding(x) {
            Some(p) => {
                self.moved[x][p] = true;
                self.put_dependants_in_front(x);
                self.list.push_front(x);
                self.list.push_front(p);
            }
            None => self.place(x),
        }
    }
}

/// The rows of a sorted group in their order, or 11 or 12.
fn sort_group(
    project: &Project,
    given: &[Vec<usize>],
    visits: &mut Visits,
) -> Result<Vec<usize>, u32> {
    let mut walk = ItemWalk::new(project, given);
    while !walk.ended() {
        visits.check_due()?;
        walk.visit();
        visits.item += 1;
        check_left(walk.list.len(), ITEM_LIST)?;
    }
    Ok(walk.order.iter().map(|&x| walk.split.rows[x]).collect())
}

/// The rows in load order, or 11 or 12. "All groups are found before the first
/// item visit; then they are sorted in turn." The caller has found them.
pub fn order_of(
    project: &Project,
    groups: &[Vec<usize>],
    visits: &mut Visits,
) -> Result<Vec<usize>, u32> {
    let mut order = Vec::new();
    let mut used = vec![false; project.modules];
    for group in groups {
        let given = given_rows(project, group, &mut used);
        if given.is_empty() {
            continue;
        }
        if keeps_row_order(project, group) {
            order.extend(&given[0]);
        } else {
            order.extend(sort_group(project, &given, visits)?);
        }
    }
    Ok(order)
}

// ---------------------------------------------------------------------------
// Calls
// ---------------------------------------------------------------------------

/// "its counts are 0".
fn refused(answer: u32) -> Numbers {
    [answer, 0, 0, 0, 0]
}

/// "except that 11 and 12 carry the visits made".
fn stopped(answer: u32, visits: &Visits) -> Numbers {
    [answer, 0, 0, visits.module, visits.item]
}

/// "a group reply [gets] a count byte and the members of each group; bytes
/// beyond stay". "A groups call reports its kept items and item visits as 0."
pub fn groups_call(bytes: &[u8], reply: &mut [u8], allowance: u32) -> Numbers {
    let project = match read(bytes) {
        Ok(project) => project,
        Err(answer) => return refused(answer),
    };
    // 10, short reply: "under M × (M + 1) bytes (groups)".
    if reply.len() < project.modules * (project.modules + 1) {
        return refused(10);
    }
    let mut visits = Visits::new(allowance);
    let groups = match groups_of(&project, &mut visits) {
        Ok(groups) => groups,
        Err(answer) => return stopped(answer, &visits),
    };
    let mut at = 0;
    for group in &groups {
        reply[at] = group.len() as u8;
        for (i, &m) in group.iter().enumerate() {
            reply[at + 1 + i] = m as u8;
        }
        at += 1 + group.len();
    }
    [0, 0, groups.len() as u32, visits.module, 0]
}

/// "An order reply gets one byte, its row number, per kept item ...; bytes
/// beyond stay." "Groups count also those without items."
pub fn order_call(bytes: &[u8], reply: &mut [u8], allowance: u32) -> Numbers {
    let project = match read(bytes) {
        Ok(project) => project,
        Err(answer) => return refused(answer),
    };
    // 10, short reply: "under one byte per item row (order)".
    if reply.len() < project.items.len() {
        return refused(10);
    }
    let mut visits = Visits::new(allowance);
    let groups = match groups_of(&project, &mut visits) {
        Ok(groups) => groups,
        Err(answer) => return stopped(answer, &visits),
    };
    let order = match order_of(&project, &groups, &mut visits) {
        Ok(order) => order,
        Err(answer) => return stopped(answer, &visits),
    };
    for (i, &row) in order.iter().enumerate() {
        reply[i] = row as u8;
    }
    let kept = order.len() as u32;
    [0, kept, groups.len() as u32, visits.module, visits.item]
}

/// "its entry also writes those five numbers in that order, 32 bits each, to
/// the first 20 bytes of a report, on every answer but 13".
fn write_report(report: &mut [u8], numbers: &Numbers) {
    for (i, number) in numbers.iter().enumerate() {
        report[4 * i..4 * i + 4].copy_from_slice(&number.to_le_bytes());
    }
}

/// The entry that is an order call. 13, short report: "report under 20 bytes",
/// checked first, "which leaves it untouched".
pub fn order_entry(bytes: &[u8], reply: &mut [u8], report: &mut [u8], allowance: u32) -> u32 {
    if report.len() < 20 {
        return 13;
    }
    let numbers = order_call(bytes, reply, allowance);
    write_report(report, &numbers);
    numbers[0]
}

/// The same entry over a groups call.
pub fn groups_entry(bytes: &[u8], reply: &mut [u8], report: &mut [u8], allowance: u32) -> u32 {
    if report.len() < 20 {
        return 13;
    }
    let numbers = groups_call(bytes, reply, allowance);
    write_report(report, &numbers);
    numbers[0]
}

// ---------------------------------------------------------------------------
// Keys
// ---------------------------------------------------------------------------

/// "A program reads a project from standard input (at most 8,229 bytes of it)".
pub const KEY_INPUT: usize = 8_229;

/// Document 02, item 13: "The printed key program relied on 100,000 and now
/// passes that number itself".
pub const KEY_ALLOWANCE: u32 = 100_000;

/// The key program "prints `ok`, kept, groups, module visits, item
/// visits, then a second line with the order (empty if nothing is kept), all
/// separated by one blank; or `no` and the number. Lines end in LF."
pub fn key(input: &[u8]) -> String {
    let project = &input[..input.len().min(KEY_INPUT)];
    let mut reply = [0; 256];
    let [answer, kept, groups, module_visits, item_visits] =
        order_call(project, &mut reply, KEY_ALLOWANCE);
    if answer != 0 {
        return format!("no {answer}\n");
    }
    let order: Vec<String> = reply[..kept as usize].iter().map(u8::to_string).collect();
    let order = order.join(" ");
    format!("ok {kept} {groups} {module_visits} {item_visits}\n{order}\n")
}
