//! The sides that are called with bytes and are compared byte by byte with
//! the plain rendering.

/// project, reply, report, allowance; the answer number.
pub type Entry = fn(&[u8], &mut [u8], &mut [u8], u32) -> u32;

pub struct Side {
    pub name: &'static str,
    pub groups: Entry,
    pub order: Entry,
}

/// The proved code, as `.ci/archive` hands it to a host.
#[cfg(feature = "archive")]
pub const ARCHIVE: Side = Side {
    name: "archive",
    groups: escarpim::entry::groups,
    order: escarpim::entry::order,
};

/// All sides but the plain rendering itself.
pub fn sides() -> &'static [Side] {
    &[
        #[cfg(feature = "archive")]
        ARCHIVE,
    ]
}
