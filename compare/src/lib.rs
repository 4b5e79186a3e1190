//! The sorting of stage script projects, side by side: the original Rust, a
//! plain rendering of the papers, and further sides that are called with
//! bytes.

pub mod check;
pub mod demands;
pub mod generate;
pub mod long;
#[cfg(has_original)]
pub mod original;
pub mod plain;
pub mod shrink;
pub mod sides;

/// Whether the original was there when this was built.
pub const HAS_ORIGINAL: bool = cfg!(has_original);
