//! The three calls as one election.

use super::terms::DICE;
use super::writer::{
    check, due_lengths, mask_of, part_one, part_three, part_two, Given, Inputs, MaskSource,
    SidesSource,
};

/// What the dice table gives: the characters, and mask and sides where their switches are not 0.
/// Where a switch is 0 they are drawn, and what stands in their place is not looked at.
#[derive(Clone, Copy, Debug)]
pub struct DiceTable<'a> {
    pub mask_given: u32,
    pub first_dice: &'a [u8],
    pub mask: u32,
    pub sides_given: u32,
    pub second_dice: &'a [u8],
    pub sides: &'a [u8],
}

impl<'a> DiceTable<'a> {
    /// The mask, where it is given.
    fn given_mask(&self) -> Option<u32> {
        (self.mask_given != 0).then_some(self.mask)
    }

    /// The sides, where they are given.
    fn given_sides(&self) -> Option<&'a [u8]> {
        (self.sides_given != 0).then_some(self.sides)
    }
}

/// The writers' order over all that an election is given: both throws, mask and sides where they
/// are given, and the four buffers.
fn check_all(inputs: &Inputs, table: &DiceTable, lengths: [usize; 4]) -> Result<(), u8> {
    let [one, two, three] = due_lengths(inputs);
    let dice = [table.first_dice, table.second_dice].concat();
    let mut lent = vec![(table.first_dice.len(), DICE), (table.second_dice.len(), DICE)];
    lent.extend(lengths.into_iter().zip([one, two, three, one + two + three]));
    let sides = table.given_sides();
    lent.extend(sides.map(|sides| (sides.len(), inputs.parameters.ballots())));
    check(inputs, &Given { dice: Some(&dice), mask: table.given_mask(), sides }, &lent)
}

/// Writes the three parts and their join, or answers 3, then 18 for every slice, then the rest in
/// rising number, each over the whole input.
pub fn election(inputs: &Inputs, table: &DiceTable, mut buffers: [&mut [u8]; 4]) -> Result<(), u8> {
    check_all(inputs, table, buffers.each_ref().map(|buffer| buffer.len()))?;
    let [mut one, mut two, mut three, _] = buffers.each_ref().map(|buffer| buffer.to_vec());
    part_one(inputs, &mut one)?;
    let mask = match table.given_mask() {
        None => MaskSource::Drawn { part_one: &one },
        Some(mask) => MaskSource::Given(mask),
    };
    part_two(inputs, table.first_dice, mask, &mut two)?;
    let sides = match table.given_sides() {
        None => SidesSource::Drawn { part_one: &one, part_two: &two },
        Some(sides) => SidesSource::Given(sides),
    };
    part_three(inputs, table.second_dice, mask_of(&two), sides, &mut three)?;
    let record = [&one[..], &two, &three].concat();
    for (buffer, written) in buffers.iter_mut().zip([one, two, three, record]) {
        buffer.copy_from_slice(&written);
    }
    Ok(())
}
