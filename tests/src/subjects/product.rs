//! The reference's answers, once the product's are found to be the same: numbers, and what lent
//! buffers hold afterwards, with nothing written around them.

mod calendar;
mod columns;
mod election;
mod hash;
mod judge;
mod parts;
mod results;
mod runoff;
mod tablet;

pub use calendar::{calendar, window_at};
pub use columns::{offsets_server, row_server, split_server};
pub use election::election;
pub use hash::{keccak_f, sha3_224, sha3_256};
pub use judge::judge;
pub use parts::{mask_entry, part_one, part_three, part_two};
pub use results::{announced_votes, check_receipt, look_up, tally};
pub use runoff::runoff;
pub use tablet::tablet;

use crate::lent::{number_of, Lent};
use std::fmt::Debug;

/// Runs both sides on copies of one buffer.
fn compare<T: Copy + Debug + PartialEq + From<u8>>(
    out: &mut [T],
    product: impl Fn(&mut [T]) -> u32,
    reference: impl Fn(&mut [T]) -> Result<(), u8>,
) -> Result<(), u8> {
    let mut lent = Lent::new(out);
    let found = product(lent.slice());
    let due = reference(out);
    assert_eq!(found, number_of(&due));
    lent.check(out);
    due
}
