//! The two entries of the archive, over slices that the caller lends.
//!
//! The archive is proved for every project, every reply and report of any
//! length, and every allowance, so these functions are safe to call with
//! anything. Refusal 13 (short report) and 10 (short reply) come only here;
//! the functions at the top of this crate lend buffers that are long enough.

/// A slice crosses the border as its pointer and its length.
mod archive {
    extern "C" {
        pub fn escarpim_order(
            project: *const u8,
            project_length: usize,
            reply: *mut u8,
            reply_length: usize,
            report: *mut u8,
            report_length: usize,
            allowance: u32,
        ) -> u32;

        pub fn escarpim_groups(
            project: *const u8,
            project_length: usize,
            reply: *mut u8,
            reply_length: usize,
            report: *mut u8,
            report_length: usize,
            allowance: u32,
        ) -> u32;
    }
}

/// The bytes of a report that an entry writes.
pub const REPORT: usize = 20;
/// One byte for each of the 256 item rows that a project has at most.
pub const ORDER_REPLY: usize = 256;
/// M × (M + 1) bytes for the 64 modules that a project has at most.
pub const GROUPS_REPLY: usize = 64 * 65;

/// An order call. The answer's number is returned. The rows of the kept items
/// are written to the reply, where the answer is 0; the report gets answer,
/// kept items, groups, module visits and item visits, 32 bits each, lowest
/// byte first, unless it is shorter than [`REPORT`].
pub fn order(project: &[u8], reply: &mut [u8], report: &mut [u8], allowance: u32) -> u32 {
    // SAFETY: each pair is the pointer and the length of a slice; those that
    // are written to are borrowed mutably, so that no two overlap. The archive
    // reads and writes nothing outside of them and keeps none of them.
    unsafe {
        archive::escarpim_order(
            project.as_ptr(),
            project.len(),
            reply.as_mut_ptr(),
            reply.len(),
            report.as_mut_ptr(),
            report.len(),
            allowance,
        )
    }
}

/// A groups call, likewise. The reply gets a count byte and the members of
/// each group; kept items and item visits are reported as 0.
pub fn groups(project: &[u8], reply: &mut [u8], report: &mut [u8], allowance: u32) -> u32 {
    // SAFETY: as in `order`.
    unsafe {
        archive::escarpim_groups(
            project.as_ptr(),
            project.len(),
            reply.as_mut_ptr(),
            reply.len(),
            report.as_mut_ptr(),
            report.len(),
            allowance,
        )
    }
}
