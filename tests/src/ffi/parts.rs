//! The servers' three parts, and the draw of the mask.

use super::Told;
use crate::reference::terms::Parameters;
use crate::reference::writer::{Inputs, MaskSource, SidesSource};

/// Declares faces that are given all inputs, and then what is named.
macro_rules! declare {
    ($($face:ident($($further:ident: $type:ty),*);)*) => {
        extern "C" {
            $(pub fn $face(
                numbered: u32,
                election: u32,
                modulus: u32,
                ballots: u32,
                compared: u32,
                ids: *const u32,
                ids_len: usize,
                votes: *const u32,
                votes_len: usize,
                numbers: *const u32,
                numbers_len: usize,
                permutations: *const u16,
                permutations_len: usize,
                keys: *const u8,
                keys_len: usize,
                $($further: $type),*
            ) -> u32;)*
        }
    };
}

mod faces {
    declare! {
        paddockyear_part_one(out: *mut u8, out_len: usize);
        paddockyear_part_two(
            dice: *const u8, dice_len: usize, mask: u32, out: *mut u8, out_len: usize
        );
        paddockyear_part_two_drawn(
            dice: *const u8, dice_len: usize, one: *const u8, one_len: usize, out: *mut u8,
            out_len: usize
        );
        paddockyear_part_three(
            dice: *const u8, dice_len: usize, mask: u32, sides: *const u8, sides_len: usize,
            out: *mut u8, out_len: usize
        );
        paddockyear_part_three_drawn(
            dice: *const u8, dice_len: usize, mask: u32, one: *const u8, one_len: usize,
            two: *const u8, two_len: usize, out: *mut u8, out_len: usize
        );
    }

    extern "C" {
        pub fn paddockyear_draw_mask(
            numbered: u32,
            election: u32,
            modulus: u32,
            ballots: u32,
            compared: u32,
            dice: *const u8,
            dice_len: usize,
            one: *const u8,
            one_len: usize,
            mask: *mut u32,
        ) -> u32;
    }
}

/// Calls a face with the form and all inputs, and then with what follows.
macro_rules! call {
    ($face:ident, $told:expr, $inputs:expr, $($further:expr),*) => {{
        let Inputs { parameters, ids, votes, numbers, permutations, keys } = $inputs;
        // SAFETY: the face reads the slices lent to it and writes the last one.
        unsafe {
            faces::$face(
                $told.numbered,
                $told.election,
                parameters.modulus,
                parameters.n,
                parameters.m,
                ids.as_ptr(),
                ids.len(),
                votes.as_ptr(),
                votes.len(),
                numbers.as_ptr(),
                numbers.len(),
                permutations.as_ptr(),
                permutations.len(),
                keys.as_ptr(),
                keys.len(),
                $($further),*
            )
        }
    }};
}

/// 0, or the refusal's number.
pub fn part_one(told: Told, inputs: &Inputs, out: &mut [u8]) -> u32 {
    call!(paddockyear_part_one, told, inputs, out.as_mut_ptr(), out.len())
}

/// 0, or the refusal's number.
pub fn part_two(told: Told, inputs: &Inputs, dice: &[u8], mask: MaskSource, out: &mut [u8]) -> u32 {
    match mask {
        MaskSource::Given(mask) => call!(
            paddockyear_part_two,
            told,
            inputs,
            dice.as_ptr(),
            dice.len(),
            mask,
            out.as_mut_ptr(),
            out.len()
        ),
        MaskSource::Drawn { part_one } => call!(
            paddockyear_part_two_drawn,
            told,
            inputs,
            dice.as_ptr(),
            dice.len(),
            part_one.as_ptr(),
            part_one.len(),
            out.as_mut_ptr(),
            out.len()
        ),
    }
}

/// 0, or the refusal's number.
pub fn part_three(
    told: Told,
    inputs: &Inputs,
    dice: &[u8],
    mask: u32,
    sides: SidesSource,
    out: &mut [u8],
) -> u32 {
    match sides {
        SidesSource::Given(sides) => call!(
            paddockyear_part_three,
            told,
            inputs,
            dice.as_ptr(),
            dice.len(),
            mask,
            sides.as_ptr(),
            sides.len(),
            out.as_mut_ptr(),
            out.len()
        ),
        SidesSource::Drawn { part_one, part_two } => call!(
            paddockyear_part_three_drawn,
            told,
            inputs,
            dice.as_ptr(),
            dice.len(),
            mask,
            part_one.as_ptr(),
            part_one.len(),
            part_two.as_ptr(),
            part_two.len(),
            out.as_mut_ptr(),
            out.len()
        ),
    }
}

/// 0, or the refusal's number; `mask` gets the drawn one.
pub fn draw_mask(
    told: Told,
    parameters: &Parameters,
    dice: &[u8],
    part_one: &[u8],
    mask: &mut u32,
) -> u32 {
    // SAFETY: the face reads the two slices and writes the mask.
    unsafe {
        faces::paddockyear_draw_mask(
            told.numbered,
            told.election,
            parameters.modulus,
            parameters.n,
            parameters.m,
            dice.as_ptr(),
            dice.len(),
            part_one.as_ptr(),
            part_one.len(),
            mask,
        )
    }
}
