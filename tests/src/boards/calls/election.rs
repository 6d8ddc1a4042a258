//! Calls of the election.

use super::inputs::{self, Given};
use super::misuse::{drop_last, fewer, last, length_of_other_form, other_form, Misusable, Misuse};
use crate::boards::{inputs as any_inputs, Draws};
use crate::random::Random;
use crate::reference::election::DiceTable;
use crate::reference::terms::{refusal, Parameters};
use crate::reference::writer::Inputs;

#[derive(Clone, Debug, PartialEq, Eq)]
pub struct ElectionCall {
    pub inputs: Inputs,
    pub mask_given: u32,
    pub first_dice: Vec<u8>,
    pub mask: u32,
    pub sides_given: u32,
    pub second_dice: Vec<u8>,
    pub sides: Vec<u8>,
    /// For the three parts and their join.
    pub buffers: [Vec<u8>; 4],
}

impl ElectionCall {
    /// A call that is not refused, noise in its buffers and in the place of what is drawn.
    pub fn honest(random: &mut Random, parameters: Parameters, draws: Draws) -> Self {
        let inputs = any_inputs(random, parameters);
        Self::of(random, inputs, draws)
    }

    pub fn of(random: &mut Random, inputs: Inputs, draws: Draws) -> Self {
        let Parameters { n, m, .. } = inputs.parameters;
        let [one, two, three] = inputs.parameters.part_lengths();
        let noise = random.index(2 * n as usize + 2);
        ElectionCall {
            mask_given: u32::from(!draws.mask),
            first_dice: random.dice(),
            mask: if draws.mask { random.word() as u32 } else { random.mask(m) },
            sides_given: u32::from(!draws.sides),
            second_dice: random.dice(),
            sides: if draws.sides { random.bytes(noise) } else { random.sides(n as usize) },
            buffers: [one, two, three, one + two + three].map(|length| random.bytes(length)),
            inputs,
        }
    }

    /// Holds it; `election` is what the suite runs.
    pub fn hold(
        &mut self,
        election: impl Fn(&Inputs, &DiceTable, [&mut [u8]; 4]) -> Result<(), u8>,
    ) -> Result<(), u8> {
        let table = DiceTable {
            mask_given: self.mask_given,
            first_dice: &self.first_dice,
            mask: self.mask,
            sides_given: self.sides_given,
            second_dice: &self.second_dice,
            sides: &self.sides,
        };
        election(&self.inputs, &table, self.buffers.each_mut().map(|buffer| &mut buffer[..]))
    }

    /// The joined parts.
    pub fn record(&self) -> &[u8] {
        &self.buffers[3]
    }
}

impl Given for ElectionCall {
    fn inputs(&mut self) -> &mut Inputs {
        &mut self.inputs
    }
}

impl Misusable for ElectionCall {
    fn misuses(&self) -> Vec<Misuse<Self>> {
        let mut all = inputs::misuses(&self.inputs.parameters);
        all.extend(dice());
        all.extend(buffers());
        if self.mask_given != 0 {
            all.extend(mask());
        }
        if self.sides_given != 0 {
            all.extend(sides());
        }
        all
    }
}

/// Rules 18 and 6 on both throws.
fn dice() -> Vec<Misuse<ElectionCall>> {
    let length = |name, change| Misuse::new(refusal::LENGTH, name, change);
    let die = |name, change| Misuse::new(refusal::DICE, name, change);
    vec![
        length("29 first dice", |call| drop_last(&mut call.first_dice)),
        length("31 first dice", |call| call.first_dice.push(b'1')),
        die("first throw's first die 0", |call| call.first_dice[0] = b'0'),
        die("first throw's last die 7", |call| *last(&mut call.first_dice) = b'7'),
        length("29 second dice", |call| drop_last(&mut call.second_dice)),
        length("31 second dice", |call| call.second_dice.push(b'1')),
        die("second throw's first die 0", |call| call.second_dice[0] = b'0'),
        die("second throw's last die 7", |call| *last(&mut call.second_dice) = b'7'),
    ]
}

/// Rule 18 on the buffers.
fn buffers() -> Vec<Misuse<ElectionCall>> {
    let length = |name, change| Misuse::new(refusal::LENGTH, name, change);
    vec![
        length("part one short", |call| drop_last(&mut call.buffers[0])),
        length("part one long", |call| call.buffers[0].push(0xA5)),
        length("no part one", |call| call.buffers[0].clear()),
        length("part two short", |call| drop_last(&mut call.buffers[1])),
        length("part two long", |call| call.buffers[1].push(0xA5)),
        length("no part two", |call| call.buffers[1].clear()),
        length("part three short", |call| drop_last(&mut call.buffers[2])),
        length("part three long", |call| call.buffers[2].push(0xA5)),
        length("no part three", |call| call.buffers[2].clear()),
        length("join short", |call| drop_last(&mut call.buffers[3])),
        length("join long", |call| call.buffers[3].push(0xA5)),
        length("no join", |call| call.buffers[3].clear()),
        length("part one of the other form", |call| {
            length_of_other_form(call.inputs.parameters.form, &mut call.buffers[0]);
        }),
        length("join of the other form", |call| {
            length_of_other_form(call.inputs.parameters.form, &mut call.buffers[3]);
        }),
        length("told the other form", |call| other_form(&mut call.inputs.parameters.form)),
    ]
}

/// Rule 7.
fn mask() -> Vec<Misuse<ElectionCall>> {
    let shape = |name, change| Misuse::new(refusal::MASK_SHAPE, name, change);
    vec![
        shape("mask 0", |call| call.mask = 0),
        shape("one too many", |call| call.mask |= call.mask + 1),
        shape("bit at 2m", |call| {
            call.mask = fewer(call.mask) | 1 << (2 * call.inputs.parameters.m);
        }),
    ]
}

/// Rules 18 and 11 on the sides.
fn sides() -> Vec<Misuse<ElectionCall>> {
    let length = |name, change| Misuse::new(refusal::LENGTH, name, change);
    let side = |name, change| Misuse::new(refusal::SIDE, name, change);
    vec![
        length("a side less", |call| drop_last(&mut call.sides)),
        length("a side more", |call| call.sides.push(0)),
        side("first side 2", |call| call.sides[0] = 2),
        side("last side 255", |call| *last(&mut call.sides) = 255),
    ]
}
