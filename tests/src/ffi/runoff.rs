//! The instant runoff.

use crate::reference::runoff::Candidate;

mod faces {
    use super::Candidate;

    extern "C" {
        pub fn paddockyear_runoff(
            votes: *const u32,
            votes_len: usize,
            candidates: u32,
            table: *mut Candidate,
            table_len: usize,
            winner: *mut u32,
            blank: *mut u64,
            spoiled: *mut u64,
        ) -> u32;
    }
}

/// 0, or the refusal's number; `winner`, which gets 0 where there is none, `blank` and `spoiled`
/// are the numbers lent beside the table.
pub fn runoff(
    votes: &[u32],
    candidates: u32,
    table: &mut [Candidate],
    winner: &mut u32,
    [blank, spoiled]: &mut [u64; 2],
) -> u32 {
    // SAFETY: the face reads the votes and writes the table and the three numbers.
    unsafe {
        faces::paddockyear_runoff(
            votes.as_ptr(),
            votes.len(),
            candidates,
            table.as_mut_ptr(),
            table.len(),
            winner,
            blank,
            spoiled,
        )
    }
}
