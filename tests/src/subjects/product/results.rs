//! The receipt check, the receipt lookup, the announced votes and the tally.

use super::compare;
use crate::ffi::results as product;
use crate::lent::{number_of, Lent};
use crate::reference::receipt::{self, Posted};
use crate::reference::results as reference;

pub fn check_receipt(record: &[u8], printed: &[u8]) -> Result<Posted, u8> {
    let due = receipt::check_receipt(record, printed);
    assert_eq!(product::check_receipt(record, printed), code_of(due));
    due
}

pub fn look_up(record: &[u8], printed: &[u8]) -> Result<Posted, u8> {
    let due = receipt::look_up(record, printed);
    assert_eq!(product::look_up(record, printed), code_of(due));
    due
}

/// The answer as the faces have it.
fn code_of(answer: Result<Posted, u8>) -> u32 {
    match answer {
        Ok(Posted::AsPrinted) => product::AS_PRINTED,
        Ok(Posted::Otherwise) => product::POSTED_OTHERWISE,
        Ok(Posted::Not) => product::NOT_POSTED,
        Err(number) => u32::from(number),
    }
}

pub fn announced_votes(record: &[u8], out: &mut [u32]) -> Result<(), u8> {
    compare(
        out,
        |out| product::announced_votes(record, out),
        |out| reference::announced_votes(record, out),
    )
}

pub fn tally(votes: &[u32], values: &mut [u32], counts: &mut [u64]) -> Result<usize, u8> {
    let noise = 0xA5A5_5A5A_0F0F_F0F0;
    let (mut lent_values, mut lent_counts) = (Lent::new(values), Lent::new(counts));
    let mut pairs = noise;
    let found = product::tally(votes, lent_values.slice(), lent_counts.slice(), &mut pairs);
    let due = reference::tally(votes, values, counts);
    assert_eq!(found, number_of(&due));
    assert_eq!(pairs, due.map_or(noise, |pairs| pairs as u64));
    lent_values.check(values);
    lent_counts.check(counts);
    due
}
