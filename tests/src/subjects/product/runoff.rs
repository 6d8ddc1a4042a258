//! The instant runoff.

use crate::ffi::runoff as product;
use crate::lent::{number_of, Lent};
use crate::reference::runoff::{self as reference, Candidate, Outcome};

/// What the numbers lent beside the table hold that the product does not write.
const WINNER_NOISE: u32 = 0x5A5A_A5A5;
const COUNT_NOISE: [u64; 2] = [0xA5A5_5A5A_0F0F_F0F0, 0xF0F0_0F0F_5A5A_A5A5];

/// What stands around a lent table.
impl From<u8> for Candidate {
    fn from(byte: u8) -> Self {
        Candidate { count: u64::from(byte) << 32 | 0x5C, left: u32::from(byte) << 16 | 0xC5 }
    }
}

pub fn runoff(votes: &[u32], candidates: u32, table: &mut [Candidate]) -> Result<Outcome, u8> {
    let mut lent = Lent::new(table);
    let (mut winner, mut counts) = (WINNER_NOISE, COUNT_NOISE);
    let found = product::runoff(votes, candidates, lent.slice(), &mut winner, &mut counts);
    let due = reference::runoff(votes, candidates, table);
    assert_eq!(found, number_of(&due), "{candidates} candidates, {votes:?}");
    let numbers = match due {
        Ok(Outcome { winner, blank, spoiled }) => (winner.unwrap_or(0), [blank, spoiled]),
        Err(_) => (WINNER_NOISE, COUNT_NOISE),
    };
    assert_eq!((winner, counts), numbers, "{candidates} candidates, {votes:?}");
    lent.check(table);
    due
}
