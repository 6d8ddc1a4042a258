//! The receipt check, the receipt lookup, the announced votes and the tally.

mod faces {
    extern "C" {
        pub fn paddockyear_check_receipt(
            bytes: *const u8,
            len: usize,
            printed: *const u8,
            printed_len: usize,
        ) -> u32;
        pub fn paddockyear_look_up(
            bytes: *const u8,
            len: usize,
            printed: *const u8,
            printed_len: usize,
        ) -> u32;
        pub fn paddockyear_announced_votes(
            bytes: *const u8,
            len: usize,
            out: *mut u32,
            out_len: usize,
        ) -> u32;
        pub fn paddockyear_tally(
            votes: *const u32,
            votes_len: usize,
            values: *mut u32,
            values_len: usize,
            counts: *mut u64,
            counts_len: usize,
            pairs: *mut u64,
        ) -> u32;
    }
}

pub const AS_PRINTED: u32 = 0;
pub const POSTED_OTHERWISE: u32 = 101;
pub const NOT_POSTED: u32 = 102;

/// One of the three answers, or the refusal's number.
pub fn check_receipt(record: &[u8], printed: &[u8]) -> u32 {
    // SAFETY: the face reads the two slices.
    unsafe {
        faces::paddockyear_check_receipt(
            record.as_ptr(),
            record.len(),
            printed.as_ptr(),
            printed.len(),
        )
    }
}

/// One of the three answers, or the refusal's number.
pub fn look_up(record: &[u8], printed: &[u8]) -> u32 {
    // SAFETY: the face reads the two slices.
    unsafe {
        faces::paddockyear_look_up(record.as_ptr(), record.len(), printed.as_ptr(), printed.len())
    }
}

/// 0, or the refusal's number.
pub fn announced_votes(record: &[u8], out: &mut [u32]) -> u32 {
    // SAFETY: the face reads the record and writes `out`.
    unsafe {
        faces::paddockyear_announced_votes(
            record.as_ptr(),
            record.len(),
            out.as_mut_ptr(),
            out.len(),
        )
    }
}

/// 0, or the refusal's number; `pairs` gets how many pairs were written.
pub fn tally(votes: &[u32], values: &mut [u32], counts: &mut [u64], pairs: &mut u64) -> u32 {
    // SAFETY: the face reads the votes and writes the two other slices and `pairs`.
    unsafe {
        faces::paddockyear_tally(
            votes.as_ptr(),
            votes.len(),
            values.as_mut_ptr(),
            values.len(),
            counts.as_mut_ptr(),
            counts.len(),
            pairs,
        )
    }
}
