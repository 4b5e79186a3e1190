//! Sorts stage script projects into load order.
//!
//! A project is handed over as bytes (the format is that of document 01 of
//! the request). The work is done by an archive whose code is proved; this
//! crate makes the calls and puts the answers into Rust types. It does not
//! panic, whatever the bytes are.

use std::fmt;

pub mod entry;

/// A load order.
#[derive(Clone, Debug, PartialEq, Eq)]
pub struct Order {
    /// The row numbers of the kept items, in the order in which to load them.
    pub items: Vec<u8>,
    /// How many groups there are, those without items too.
    pub groups: u32,
    pub module_visits: u32,
    pub item_visits: u32,
}

/// The modules, in groups that are to be loaded one after the other.
#[derive(Clone, Debug, PartialEq, Eq)]
pub struct Groups {
    /// The module numbers of each group.
    pub groups: Vec<Vec<u8>>,
    pub module_visits: u32,
}

/// Why a project was turned down.
#[derive(Clone, Copy, Debug, PartialEq, Eq)]
pub struct Refusal {
    /// 1 to 13.
    pub number: u32,
    /// The visits made, for 11 and 12; 0 for the others.
    pub module_visits: u32,
    pub item_visits: u32,
}

impl Refusal {
    /// What the number is called.
    pub fn name(&self) -> &'static str {
        match self.number {
            1 => "stub",
            2 => "foreign",
            3 => "misplaced",
            4 => "ragged",
            5 => "outsize",
            6 => "bad item",
            7 => "bad import",
            8 => "bad circle",
            9 => "bad need",
            10 => "short reply",
            11 => "spent",
            12 => "list full",
            13 => "short report",
            _ => "unknown",
        }
    }

    /// When it comes.
    pub fn meaning(&self) -> &'static str {
        match self.number {
            1 => "the project has under 36 bytes",
            2 => "the edition is not 1, or byte 3 is not 0",
            3 => "a section does not start where it has to, or the last does not end the project",
            4 => "items or imports have an odd length, or needs no multiple of 3",
            5 => "the number of modules, the entry or a section is outside its limit",
            6 => "an item's module is not there, or its kind is above 5",
            7 => "an end of an import is not there, or both ends are equal",
            8 => "a list of a circle passes the section's end, or a member is not there",
            9 => "an end of a need is not there, both are equal, or its weight is above 1",
            10 => "the reply is too short",
            11 => "the visits made equal the allowance, and another is due",
            12 => "a visit leaves over 1,024 modules or 16,384 items on the list",
            13 => "the report has under 20 bytes",
            _ => "no such number",
        }
    }
}

impl fmt::Display for Refusal {
    fn fmt(&self, f: &mut fmt::Formatter<'_>) -> fmt::Result {
        write!(f, "{} ({}): {}", self.name(), self.number, self.meaning())
    }
}

impl std::error::Error for Refusal {}

/// The load order of a project's items. At most `allowance` visits are made;
/// 0 stands for 20,000. The key program passes 100,000.
///
/// ```
/// // Two modules, 0 imports 1; an item in each.
/// let project = [
///     1, 2, 0, 0, // edition, modules, entry, 0
///     36, 0, 0, 0, 4, 0, 0, 0, // items: offset and length
///     40, 0, 0, 0, 2, 0, 0, 0, // imports
///     42, 0, 0, 0, 0, 0, 0, 0, // circles
///     42, 0, 0, 0, 0, 0, 0, 0, // needs
///     0, 0, 1, 0, // item 0: module 0, plain; item 1: module 1, plain
///     0, 1, // module 0 imports module 1
/// ];
/// let order = escarpim::order(&project, 0)?;
/// assert_eq!(order.items, [1, 0]);
/// assert_eq!(order.groups, 2);
///
/// let refusal = escarpim::order(&project[..35], 0).unwrap_err();
/// assert_eq!((refusal.number, refusal.name()), (1, "stub"));
/// # Ok::<(), escarpim::Refusal>(())
/// ```
pub fn order(project: &[u8], allowance: u32) -> Result<Order, Refusal> {
    let mut reply = [0; entry::ORDER_REPLY];
    let mut report = [0; entry::REPORT];
    let answer = entry::order(project, &mut reply, &mut report, allowance);
    let [_, kept, groups, module_visits, item_visits] = numbers(&report);
    match answer {
        0 => Ok(Order {
            items: reply.iter().copied().take(kept as usize).collect(),
            groups,
            module_visits,
            item_visits,
        }),
        number => Err(Refusal {
            number,
            module_visits,
            item_visits,
        }),
    }
}

/// The groups of a project's modules. At most `allowance` visits are made; 0
/// stands for 20,000.
///
/// ```
/// // Three modules without items; 0 imports 1, 1 and 2 import each other and
/// // are listed as a circle.
/// let project = [
///     1, 3, 0, 0, // edition, modules, entry, 0
///     36, 0, 0, 0, 0, 0, 0, 0, // items: offset and length
///     36, 0, 0, 0, 6, 0, 0, 0, // imports
///     42, 0, 0, 0, 3, 0, 0, 0, // circles
///     45, 0, 0, 0, 0, 0, 0, 0, // needs
///     0, 1, 1, 2, 2, 1, // importer, imported
///     2, 1, 2, // a list of two members
/// ];
/// let found = escarpim::groups(&project, 0)?;
/// assert_eq!(found.groups, [vec![2, 1], vec![0]]);
///
/// let refusal = escarpim::groups(&project, 1).unwrap_err();
/// assert_eq!((refusal.name(), refusal.module_visits), ("spent", 1));
/// # Ok::<(), escarpim::Refusal>(())
/// ```
pub fn groups(project: &[u8], allowance: u32) -> Result<Groups, Refusal> {
    let mut reply = [0; entry::GROUPS_REPLY];
    let mut report = [0; entry::REPORT];
    let answer = entry::groups(project, &mut reply, &mut report, allowance);
    let [_, _, count, module_visits, item_visits] = numbers(&report);
    match answer {
        0 => Ok(Groups {
            groups: lists(&reply, count),
            module_visits,
        }),
        number => Err(Refusal {
            number,
            module_visits,
            item_visits,
        }),
    }
}

/// The five numbers of a report.
fn numbers(report: &[u8; entry::REPORT]) -> [u32; 5] {
    std::array::from_fn(|i| {
        let place = [0, 1, 2, 3].map(|k| report[4 * i + k]);
        u32::from_le_bytes(place)
    })
}

/// The first lists of a reply, each a count byte and that many members.
fn lists(reply: &[u8], count: u32) -> Vec<Vec<u8>> {
    let mut rest = reply.iter().copied();
    (0..count)
        .map_while(|_| {
            let members = rest.next()?;
            Some(rest.by_ref().take(members as usize).collect())
        })
        .collect()
}
