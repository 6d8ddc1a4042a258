//! The tablet.

use super::Told;
use crate::reference::tablet::SplitVote;

mod faces {
    extern "C" {
        pub fn paddockyear_tablet(
            numbered: u32,
            election: u32,
            modulus: u32,
            id: u32,
            vote: u32,
            x: u32,
            y: u32,
            u1: u32,
            u2: u32,
            u3: u32,
            keys: *const u8,
            keys_len: usize,
            command: *mut u8,
            command_len: usize,
            receipt: *mut u8,
            receipt_len: usize,
        ) -> u32;
    }
}

/// 0, or the refusal's number.
pub fn tablet(
    told: Told,
    modulus: u32,
    id: u32,
    split: &SplitVote,
    keys: &[u8],
    command: &mut [u8],
    receipt: &mut [u8],
) -> u32 {
    let [vote, x, y, u1, u2, u3] = split.given();
    // SAFETY: the face reads the keys and writes the two other slices.
    unsafe {
        faces::paddockyear_tablet(
            told.numbered,
            told.election,
            modulus,
            id,
            vote,
            x,
            y,
            u1,
            u2,
            u3,
            keys.as_ptr(),
            keys.len(),
            command.as_mut_ptr(),
            command.len(),
            receipt.as_mut_ptr(),
            receipt.len(),
        )
    }
}
