//! The servers' three parts, and the draw of the mask.

use super::compare;
use crate::ffi::parts as product;
use crate::lent::number_of;
use crate::reference::drawing;
use crate::reference::terms::Parameters;
use crate::reference::writer::{self as reference, Inputs, MaskSource, SidesSource};

pub fn part_one(inputs: &Inputs, out: &mut [u8]) -> Result<(), u8> {
    let told = inputs.parameters.form.into();
    compare(out, |out| product::part_one(told, inputs, out), |out| reference::part_one(inputs, out))
}

pub fn part_two(inputs: &Inputs, dice: &[u8], mask: MaskSource, out: &mut [u8]) -> Result<(), u8> {
    let told = inputs.parameters.form.into();
    compare(
        out,
        |out| product::part_two(told, inputs, dice, mask, out),
        |out| reference::part_two(inputs, dice, mask, out),
    )
}

pub fn part_three(
    inputs: &Inputs,
    dice: &[u8],
    mask: u32,
    sides: SidesSource,
    out: &mut [u8],
) -> Result<(), u8> {
    let told = inputs.parameters.form.into();
    compare(
        out,
        |out| product::part_three(told, inputs, dice, mask, sides, out),
        |out| reference::part_three(inputs, dice, mask, sides, out),
    )
}

/// What a mask holds that the product does not write; no mask stands with it.
const NOISE: u32 = 0xA5A5_5A5A;

pub fn mask_entry(parameters: &Parameters, dice: &[u8], part_one: &[u8]) -> Result<u32, u8> {
    let mut mask = NOISE;
    let told = parameters.form.into();
    let found = product::draw_mask(told, parameters, dice, part_one, &mut mask);
    let due = drawing::mask_entry(parameters, dice, part_one);
    assert_eq!((found, mask), (number_of(&due), due.unwrap_or(NOISE)));
    due
}
