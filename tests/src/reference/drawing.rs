//! Mask and sides drawn from dice.

use super::sha3::sha3_224;
use super::terms::{die_is_fair, refusal, Parameters, DICE};

/// Q: the 30 characters, then the SHA3-224 of every record byte before the dice command, in
/// lower-case hexadecimal digits.
pub fn seed(dice: &[u8], before: &[u8]) -> String {
    assert!(dice.iter().all(die_is_fair));
    let characters = dice.iter().map(|&character| char::from(character).to_string());
    let digits = sha3_224(before).map(|byte| format!("{byte:02x}"));
    characters.chain(digits).collect()
}

/// h of list i.
pub fn list_hash(list: u32, seed: &str) -> u64 {
    let digest = sha3_224(format!("{list}{seed}2").as_bytes());
    u64::from_be_bytes(digest[..8].try_into().unwrap())
}

/// With r still to choose, list i is chosen if h mod (2m - i) < r.
pub fn choose(m: u32, h: impl Fn(u32) -> u64) -> u32 {
    let (mut mask, mut remaining) = (0, u64::from(m));
    for list in 0..2 * m {
        if h(list) % u64::from(2 * m - list) < remaining {
            mask |= 1 << list;
            remaining -= 1;
        }
    }
    mask
}

pub fn drawn_mask(m: u32, seed: &str) -> u32 {
    choose(m, |list| list_hash(list, seed))
}

/// The side of one ballot, from the second Q.
pub fn drawn_side(ballot: usize, seed: &str) -> u8 {
    sha3_224(format!("{}{seed}1", ballot + 1).as_bytes())[27] & 1
}

pub fn drawn_sides(n: usize, seed: &str) -> Vec<u8> {
    (0..n).map(|ballot| drawn_side(ballot, seed)).collect()
}

/// The mask drawn on part one as lent, or 3, 18, 6.
pub fn mask_entry(parameters: &Parameters, dice: &[u8], part_one: &[u8]) -> Result<u32, u8> {
    if !parameters.within_limits() {
        return Err(refusal::LIMITS);
    }
    if dice.len() != DICE || part_one.len() != parameters.part_lengths()[0] {
        return Err(refusal::LENGTH);
    }
    if !dice.iter().all(die_is_fair) {
        return Err(refusal::DICE);
    }
    Ok(drawn_mask(parameters.m, &seed(dice, part_one)))
}
