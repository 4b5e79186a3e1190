//! What is compared for one project and for one byte string.

use std::collections::BTreeMap;
use std::fmt;

use crate::demands;
use crate::generate::Rng;
use crate::plain::{self, Numbers, Project};
use crate::shrink::hex;
use crate::sides::{sides, Entry};

#[derive(Clone, Copy, Debug, PartialEq, Eq, PartialOrd, Ord)]
pub enum Call {
    Groups,
    Order,
}

impl Call {
    /// The shortest reply that this call takes.
    pub fn reply_length(self, project: &Project) -> usize {
        match self {
            Call::Groups => project.modules * (project.modules + 1),
            Call::Order => project.items.len(),
        }
    }

    pub fn plain_entry(self) -> Entry {
        match self {
            Call::Groups => plain::groups_entry,
            Call::Order => plain::order_entry,
        }
    }
}

/// What was seen in a run of the comparison.
#[derive(Clone, Debug, Default)]
pub struct Seen {
    pub projects: u64,
    /// Projects that meet the premise of demand 3.
    pub premise: u64,
    /// Byte strings, and those among them that were accepted.
    pub strings: u64,
    pub accepted: u64,
    pub calls: u64,
    /// How often each answer number came.
    pub answers: BTreeMap<(Call, u32), u64>,
    /// Runs of the original, with the allowance 0 stands for: ended, cut where
    /// document 01 says 11, cut where it says 12.
    pub original_ended: u64,
    pub original_spent: u64,
    pub original_full: u64,
    /// Runs of the original at other allowances.
    pub original_cut: u64,
}

/// What a call left: the answer and every byte.
#[derive(Clone, PartialEq, Eq)]
struct Left {
    answer: u32,
    reply: Vec<u8>,
    report: Vec<u8>,
}

impl fmt::Debug for Left {
    fn fmt(&self, f: &mut fmt::Formatter) -> fmt::Result {
        write!(f, "{}", self.answer)?;
        if self.report.len() >= 20 {
            write!(f, ", report {:?}", reported(&self.report))?;
        }
        write!(f, ", reply {}", hex(&self.reply))?;
        write!(f, ", bytes of the report {}", hex(&self.report))
    }
}

/// What stands in replies and reports before a call. `salt` changes it from
/// call to call.
fn filler(length: usize, salt: u8) -> Vec<u8> {
    let salt = salt as usize * 89 + 201;
    (0..length).map(|i| (i * 37 + salt) as u8).collect()
}

/// The bytes that stand before every buffer, and behind it.
const GUARD: usize = 32;

/// A buffer between guard bytes.
struct Guarded {
    bytes: Vec<u8>,
    salt: u8,
}

impl Guarded {
    fn new(content: &[u8], salt: u8) -> Guarded {
        let mut bytes = Guarded::guard(salt);
        bytes.extend(content);
        bytes.extend(Guarded::guard(!salt));
        Guarded { bytes, salt }
    }

    fn guard(salt: u8) -> Vec<u8> {
        filler(GUARD, salt.wrapping_mul(29))
    }

    fn end(&self) -> usize {
        self.bytes.len() - GUARD
    }

    fn lend(&self) -> &[u8] {
        &self.bytes[GUARD..self.end()]
    }

    fn lend_mut(&mut self) -> &mut [u8] {
        let end = self.end();
        &mut self.bytes[GUARD..end]
    }

    fn guards_stand(&self) -> bool {
        self.bytes[..GUARD] == Guarded::guard(self.salt)
            && self.bytes[self.end()..] == Guarded::guard(!self.salt)
    }
}

/// Makes one call. The project and all guard bytes have to stay as they were.
fn make(
    entry: Entry,
    bytes: &[u8],
    lengths: (usize, usize),
    allowance: u32,
    salt: u8,
) -> Result<Left, String> {
    let project = Guarded::new(bytes, salt);
    let mut reply = Guarded::new(&filler(lengths.0, salt), salt);
    let mut report = Guarded::new(&filler(lengths.1, salt), salt);
    let answer = entry(
        project.lend(),
        reply.lend_mut(),
        report.lend_mut(),
        allowance,
    );
    if project.lend() != bytes {
        return Err("the project's bytes have changed".into());
    }
    for (name, buffer) in [
        ("project", &project),
        ("reply", &reply),
        ("report", &report),
    ] {
        if !buffer.guards_stand() {
            return Err(format!("bytes outside the {name} have changed"));
        }
    }
    Ok(Left {
        answer,
        reply: reply.lend().to_vec(),
        report: report.lend().to_vec(),
    })
}

/// The five numbers in a report of 20 bytes or more.
pub fn reported(report: &[u8]) -> Numbers {
    std::array::from_fn(|i| u32::from_le_bytes(report[4 * i..4 * i + 4].try_into().unwrap()))
}

/// The number of bytes that a given answer writes.
pub fn written(call: Call, numbers: &Numbers, reply: &[u8]) -> usize {
    match call {
        Call::Order => numbers[1] as usize,
        Call::Groups => (0..numbers[2]).fold(0, |at, _| at + 1 + reply[at] as usize),
    }
}

/// Makes one call on the plain rendering and on all sides. Every byte of reply
/// and report has to be the same, and the rules that hold for all answers are
/// checked. Gives the five numbers and the bytes written; none for 13.
fn call(
    seen: &mut Seen,
    call: Call,
    bytes: &[u8],
    lengths: (usize, usize),
    allowance: u32,
) -> Result<Option<(Numbers, Vec<u8>)>, String> {
    let what =
        format_args!("{call:?} call, allowance {allowance}, reply and report of {lengths:?} bytes");
    let salt = seen.calls as u8;
    let make = |name: &str, entry| {
        make(entry, bytes, lengths, allowance, salt)
            .map_err(|wrong| format!("{what}: {name}: {wrong}"))
    };
    let left = make("plain", call.plain_entry())?;
    seen.calls += 1;
    *seen.answers.entry((call, left.answer)).or_default() += 1;
    for side in sides() {
        let entry = match call {
            Call::Groups => side.groups,
            Call::Order => side.order,
        };
        let other = make(side.name, entry)?;
        if other != left {
            return Err(format!("{what}:\nplain {left:?}\n{} {other:?}", side.name));
        }
    }
    always(call, lengths, &left, salt).map_err(|rule| format!("{what}: {rule}\nplain {left:?}"))
}

/// What holds after every call.
fn always(
    call: Call,
    lengths: (usize, usize),
    left: &Left,
    salt: u8,
) -> Result<Option<(Numbers, Vec<u8>)>, String> {
    let (reply, report) = (filler(lengths.0, salt), filler(lengths.1, salt));
    if (left.answer == 13) != (lengths.1 < 20) {
        return Err("13 is for reports under 20 bytes".into());
    }
    if left.answer != 0 && left.reply != reply {
        return Err("a refusal has written to the reply".into());
    }
    if left.answer == 13 {
        return match left.report == report {
            true => Ok(None),
            false => Err("13 has written to the report".into()),
        };
    }
    let numbers = reported(&left.report);
    if numbers[0] != left.answer || left.report[20..] != report[20..] {
        return Err("the report is not right".into());
    }
    let counts = &numbers[1..];
    if left.answer != 0 && left.answer < 11 && counts != [0; 4] {
        return Err("a refusal has counts".into());
    }
    if call == Call::Groups && (numbers[1] != 0 || numbers[4] != 0) {
        return Err("a groups call reports kept items or item visits".into());
    }
    if left.answer != 0 {
        return Ok(Some((numbers, Vec::new())));
    }
    let end = written(call, &numbers, &left.reply);
    if left.reply[end..] != reply[end..] {
        return Err("bytes beyond the written ones have changed".into());
    }
    Ok(Some((numbers, left.reply[..end].to_vec())))
}

/// What a call with another allowance answers, told from the numbers of a call
/// that was not spent: "visits made equal the allowance and another is due".
fn expected(whole: &Numbers, allowance: u32) -> Numbers {
    let allowance = match allowance {
        0 => plain::USUAL_ALLOWANCE,
        given => given,
    };
    if allowance >= whole[3] + whole[4] {
        return *whole;
    }
    let module_visits = whole[3].min(allowance);
    [11, 0, 0, module_visits, allowance - module_visits]
}

/// Allowances one below, at and one above the ends of both walks, and two at
/// random.
fn allowances(rng: &mut Rng, whole: &Numbers) -> Vec<u32> {
    let total = whole[3] + whole[4];
    let mut list = vec![1, total - 1, total, total + 1, u32::MAX];
    if whole[4] > 0 {
        list.extend([whole[3] - 1, whole[3], whole[3] + 1]);
    }
    list.push(1 + rng.below(total as usize) as u32);
    list.push(whole[3] + rng.below(whole[4] as usize + 1) as u32);
    list.retain(|&a| a > 0);
    list.sort_unstable();
    list.dedup();
    list
}

/// Compares all sides on one accepted project.
pub fn check_project(seen: &mut Seen, project: &Project, seed: u64) -> Result<(), String> {
    let bytes = project.to_bytes();
    match plain::read(&bytes) {
        Ok(rows) if rows == *project => {}
        other => return Err(format!("the bytes are read as {other:?}")),
    }
    seen.projects += 1;
    let original = Original::new(project);
    let mut rng = Rng::new(seed);
    let mut given = Vec::new();
    for kind in [Call::Groups, Call::Order] {
        check_lengths(seen, kind, project, &bytes)?;
        let (whole, reply) = check_allowances(seen, kind, project, &bytes, &original, &mut rng)?;
        given.push((whole, reply));
    }
    let (groups, order) = (&given[0], &given[1]);
    seen.premise += project.meets_premise() as u64;
    demands::check(project, (&groups.0, &groups.1), (&order.0, &order.1))
}

/// The whole run, and calls with other allowances.
fn check_allowances(
    seen: &mut Seen,
    kind: Call,
    project: &Project,
    bytes: &[u8],
    original: &Original,
    rng: &mut Rng,
) -> Result<(Numbers, Vec<u8>), String> {
    let lengths = (kind.reply_length(project) + rng.below(9), 20 + rng.below(5));
    let whole = call(seen, kind, bytes, lengths, 0)?.expect("the report is long enough");
    original.compare(seen, kind, 0, &whole)?;
    for allowance in allowances(rng, &whole.0) {
        let found = call(seen, kind, bytes, lengths, allowance)?.expect("as above");
        // A run that was spent under allowance 0 may go on with more.
        if whole.0[0] != 11 || allowance <= whole.0[3] + whole.0[4] {
            let numbers = expected(&whole.0, allowance);
            let reply = match numbers[0] {
                0 => whole.1.clone(),
                _ => Vec::new(),
            };
            if found != (numbers, reply) {
                return Err(format!(
                    "{kind:?} call, allowance {allowance}: {found:?}, but {whole:?} without it"
                ));
            }
        }
        original.compare(seen, kind, allowance, &found)?;
    }
    Ok(whole)
}

/// Replies of exactly the least length, one short, of 0, 19 and 20 bytes;
/// reports of 20, 19 and no bytes.
fn check_lengths(
    seen: &mut Seen,
    kind: Call,
    project: &Project,
    bytes: &[u8],
) -> Result<(), String> {
    let least = kind.reply_length(project);
    let exact = call(seen, kind, bytes, (least, 20), 0)?.expect("20 bytes");
    if exact.0[0] == 10 {
        return Err(format!("{kind:?} call: 10 with a reply of {least} bytes"));
    }
    for length in [least.saturating_sub(1), 0, 19, 20] {
        let found = call(seen, kind, bytes, (length, 20), 0)?.expect("20 bytes");
        let expected = match length < least {
            true => ([10, 0, 0, 0, 0], Vec::new()),
            false => exact.clone(),
        };
        if found != expected {
            return Err(format!(
                "{kind:?} call: {found:?} with a reply of {length} bytes, least {least}"
            ));
        }
    }
    for report in [19, 0] {
        call(seen, kind, bytes, (least, report), 0)?;
    }
    Ok(())
}

/// Compares all sides on any byte string. `seed` decides about lengths and
/// allowances. An accepted one is compared as a project.
pub fn check_bytes(seen: &mut Seen, bytes: &[u8], seed: u64) -> Result<(), String> {
    seen.strings += 1;
    let mut rng = Rng::new(seed);
    for kind in [Call::Groups, Call::Order] {
        let reply = [0, 1, 300, 4_160][rng.below(4)];
        let report = [0, 19, 20, 23][rng.below(4)];
        let allowance = [0, 1, 7, u32::MAX][rng.below(4)];
        call(seen, kind, bytes, (reply, report), allowance)?;
        let found = call(seen, kind, bytes, (4_160, 20), 1)?.expect("20 bytes");
        let read = plain::read(bytes).map(|_| ());
        match (read, found.0[0]) {
            (Err(number), answer) if answer == number => {}
            (Ok(()), 11) => {}
            other => return Err(format!("{kind:?} call: {other:?}")),
        }
    }
    if let Ok(project) = plain::read(bytes) {
        seen.accepted += 1;
        if project.to_bytes() != bytes {
            return Err("the rows read do not give the same bytes".into());
        }
        check_project(seen, &project, seed)?;
    }
    Ok(())
}

/// The original's view of one project.
#[cfg(has_original)]
struct Original {
    given: crate::original::Given,
    /// The number of groups and the module visits, once a grouping has ended.
    grouping: std::cell::Cell<Option<(u32, u32)>>,
}

#[cfg(has_original)]
impl Original {
    fn new(project: &Project) -> Original {
        Original {
            given: crate::original::Given::new(project),
            grouping: Default::default(),
        }
    }

    /// Runs the original up to the allowance and the list limits, and compares
    /// answer, counts and bytes.
    fn compare(
        &self,
        seen: &mut Seen,
        kind: Call,
        allowance: u32,
        plain: &(Numbers, Vec<u8>),
    ) -> Result<(), String> {
        let found = self.call(kind, allowance)?;
        match (allowance, found.0[0]) {
            (0, 0) => seen.original_ended += 1,
            (0, 11) => seen.original_spent += 1,
            (0, _) => seen.original_full += 1,
            _ => seen.original_cut += 1,
        }
        if found != *plain {
            return Err(format!(
                "{kind:?} call, allowance {allowance}:\nplain    {plain:?}\noriginal {found:?}"
            ));
        }
        Ok(())
    }

    /// The original's answer in the form of document 01.
    fn call(&self, kind: Call, allowance: u32) -> Result<(Numbers, Vec<u8>), String> {
        use crate::original::End;
        let allowance = plain::Visits::new(allowance).allowance;
        let (end, module_visits, item_visits) = match kind {
            Call::Groups => self.groups(allowance),
            Call::Order => {
                let run = crate::original::order(&self.given, allowance);
                (run.end, run.module_visits, run.item_visits)
            }
        };
        let refused = |answer| ([answer, 0, 0, module_visits, item_visits], Vec::new());
        let numbers = match end {
            End::Spent => return Ok(refused(11)),
            End::Full => return Ok(refused(12)),
            End::Panicked => return Err(format!("{kind:?}: the original panics")),
            End::Ended(numbers) => numbers,
        };
        if self.grouping.get().is_none() {
            self.groups(allowance);
        }
        let Some((groups, visits)) = self.grouping.get() else {
            return Err("the original gives an order and no grouping".into());
        };
        if visits != module_visits {
            return Err("the original's two functions differ in module visits".into());
        }
        let kept = match kind {
            Call::Groups => 0,
            Call::Order => numbers.len() as u32,
        };
        let bytes = numbers.into_iter().map(|n| n as u8).collect();
        Ok(([0, kept, groups, module_visits, item_visits], bytes))
    }

    /// A grouping, as the numbers that a reply gets.
    fn groups(&self, allowance: u32) -> (crate::original::End<Vec<usize>>, u32, u32) {
        let run = crate::original::groups(&self.given, allowance);
        let end = ended(run.end, |groups| {
            self.grouping
                .set(Some((groups.len() as u32, run.module_visits)));
            let lists = groups.into_iter();
            lists.flat_map(|g| [&[g.len()], &g[..]].concat()).collect()
        });
        (end, run.module_visits, run.item_visits)
    }
}

#[cfg(has_original)]
fn ended<T, U>(end: crate::original::End<T>, f: impl FnOnce(T) -> U) -> crate::original::End<U> {
    use crate::original::End;
    match end {
        End::Ended(result) => End::Ended(f(result)),
        End::Spent => End::Spent,
        End::Full => End::Full,
        End::Panicked => End::Panicked,
    }
}

/// Without the original there is nothing to compare with here.
#[cfg(not(has_original))]
struct Original;

#[cfg(not(has_original))]
impl Original {
    fn new(_: &Project) -> Original {
        Original
    }

    fn compare(&self, _: &mut Seen, _: Call, _: u32, _: &(Numbers, Vec<u8>)) -> Result<(), String> {
        Ok(())
    }
}
