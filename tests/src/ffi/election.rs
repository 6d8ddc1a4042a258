//! The election: the three parts, their join and its judging in one call.

use super::Told;
use crate::reference::election::DiceTable;
use crate::reference::writer::Inputs;

mod faces {
    extern "C" {
        pub fn paddockyear_election(
            mask_given: u32,
            sides_given: u32,
            numbered: u32,
            election: u32,
            modulus: u32,
            ballots: u32,
            compared: u32,
            ids: *const u32,
            ids_len: usize,
            votes: *const u32,
            votes_len: usize,
            numbers: *const u32,
            numbers_len: usize,
            permutations: *const u16,
            permutations_len: usize,
            keys: *const u8,
            keys_len: usize,
            first_dice: *const u8,
            first_dice_len: usize,
            mask: u32,
            second_dice: *const u8,
            second_dice_len: usize,
            sides: *const u8,
            sides_len: usize,
            one: *mut u8,
            one_len: usize,
            two: *mut u8,
            two_len: usize,
            three: *mut u8,
            three_len: usize,
            joined: *mut u8,
            joined_len: usize,
        ) -> u32;
    }
}

/// 0, or the refusal's number.
pub fn election(told: Told, inputs: &Inputs, table: &DiceTable, buffers: [&mut [u8]; 4]) -> u32 {
    let [one, two, three, joined] = buffers;
    // SAFETY: the face reads the inputs and what the dice table gives, and writes the buffers.
    unsafe {
        faces::paddockyear_election(
            table.mask_given,
            table.sides_given,
            told.numbered,
            told.election,
            inputs.parameters.modulus,
            inputs.parameters.n,
            inputs.parameters.m,
            inputs.ids.as_ptr(),
            inputs.ids.len(),
            inputs.votes.as_ptr(),
            inputs.votes.len(),
            inputs.numbers.as_ptr(),
            inputs.numbers.len(),
            inputs.permutations.as_ptr(),
            inputs.permutations.len(),
            inputs.keys.as_ptr(),
            inputs.keys.len(),
            table.first_dice.as_ptr(),
            table.first_dice.len(),
            table.mask,
            table.second_dice.as_ptr(),
            table.second_dice.len(),
            table.sides.as_ptr(),
            table.sides.len(),
            one.as_mut_ptr(),
            one.len(),
            two.as_mut_ptr(),
            two.len(),
            three.as_mut_ptr(),
            three.len(),
            joined.as_mut_ptr(),
            joined.len(),
        )
    }
}
