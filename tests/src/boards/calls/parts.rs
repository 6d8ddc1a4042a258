//! Calls of the servers' three parts.

use super::inputs::{self, Given};
use super::misuse::{drop_last, fewer, last, length_of_other_form, other_form, Misusable, Misuse};
use crate::boards::{inputs as any_inputs, Draws, BOTH, NEITHER};
use crate::random::Random;
use crate::reference::terms::{refusal, Parameters};
use crate::reference::writer::Inputs;

/// A call of part one, two or three. Part two looks at the mask's draw, part three at the sides'.
#[derive(Clone, Debug, PartialEq, Eq)]
pub struct PartCall {
    pub part: usize,
    pub draws: Draws,
    pub inputs: Inputs,
    pub dice: Vec<u8>,
    pub mask: u32,
    pub sides: Vec<u8>,
    pub part_one: Vec<u8>,
    pub part_two: Vec<u8>,
    pub out: Vec<u8>,
}

/// The five kinds of call.
pub const KINDS: [(usize, Draws); 5] =
    [(1, BOTH), (2, NEITHER), (2, BOTH), (3, NEITHER), (3, BOTH)];

impl PartCall {
    /// A call that is not refused, noise in its buffer and in the parts that it is lent.
    pub fn honest(random: &mut Random, parameters: Parameters, kind: (usize, Draws)) -> Self {
        let inputs = any_inputs(random, parameters);
        Self::of(random, inputs, kind)
    }

    pub fn of(random: &mut Random, inputs: Inputs, (part, draws): (usize, Draws)) -> Self {
        let [one, two, three] = inputs.parameters.part_lengths();
        PartCall {
            part,
            draws,
            dice: random.dice(),
            mask: random.mask(inputs.parameters.m),
            sides: random.sides(inputs.parameters.ballots()),
            part_one: random.bytes(one),
            part_two: random.bytes(two),
            out: random.bytes([one, two, three][part - 1]),
            inputs,
        }
    }

    pub fn has_dice(&self) -> bool {
        self.part > 1
    }

    pub fn has_mask(&self) -> bool {
        self.part == 3 || self.part == 2 && !self.draws.mask
    }

    pub fn has_sides(&self) -> bool {
        self.part == 3 && !self.draws.sides
    }

    pub fn lends_part_one(&self) -> bool {
        self.part == 2 && self.draws.mask || self.lends_part_two()
    }

    pub fn lends_part_two(&self) -> bool {
        self.part == 3 && self.draws.sides
    }
}

impl Given for PartCall {
    fn inputs(&mut self) -> &mut Inputs {
        &mut self.inputs
    }
}

impl Misusable for PartCall {
    fn misuses(&self) -> Vec<Misuse<Self>> {
        let mut all = inputs::misuses(&self.inputs.parameters);
        all.extend(buffer());
        if self.has_dice() {
            all.extend(dice());
        }
        if self.has_mask() {
            all.extend(mask());
        }
        if self.has_sides() {
            all.extend(sides());
        }
        if self.lends_part_one() {
            all.extend(part_one());
        }
        if self.part == 1 || self.lends_part_one() {
            all.push(told_the_other_form());
        }
        if self.lends_part_two() {
            all.extend(part_two());
        }
        all
    }
}

/// Rule 18 on the buffer.
fn buffer() -> Vec<Misuse<PartCall>> {
    let length = |name, change| Misuse::new(refusal::LENGTH, name, change);
    vec![
        length("buffer short", |call| drop_last(&mut call.out)),
        length("buffer long", |call| call.out.push(0xA5)),
        length("no buffer", |call| call.out.clear()),
        length("4 bytes of another form", |call| {
            length_of_other_form(call.inputs.parameters.form, &mut call.out);
        }),
    ]
}

/// Rule 18 where part one is written or lent: it has the length of the form that it was made for.
fn told_the_other_form() -> Misuse<PartCall> {
    Misuse::new(refusal::LENGTH, "told the other form", |call| {
        other_form(&mut call.inputs.parameters.form);
    })
}

/// Rules 18 and 6 on the dice.
fn dice() -> Vec<Misuse<PartCall>> {
    let length = |name, change| Misuse::new(refusal::LENGTH, name, change);
    let die = |name, change| Misuse::new(refusal::DICE, name, change);
    vec![
        length("29 dice", |call| drop_last(&mut call.dice)),
        length("31 dice", |call| call.dice.push(b'1')),
        length("no dice", |call| call.dice.clear()),
        die("first die 0", |call| call.dice[0] = b'0'),
        die("last die 7", |call| *last(&mut call.dice) = b'7'),
    ]
}

/// Rule 7.
fn mask() -> Vec<Misuse<PartCall>> {
    let shape = |name, change| Misuse::new(refusal::MASK_SHAPE, name, change);
    vec![
        shape("mask 0", |call| call.mask = 0),
        shape("one too many", |call| call.mask |= call.mask + 1),
        shape("bit at 2m", |call| {
            call.mask = fewer(call.mask) | 1 << (2 * call.inputs.parameters.m);
        }),
        shape("highest bit", |call| call.mask |= 1 << 31),
    ]
}

/// Rules 18 and 11 on the sides.
fn sides() -> Vec<Misuse<PartCall>> {
    let length = |name, change| Misuse::new(refusal::LENGTH, name, change);
    let side = |name, change| Misuse::new(refusal::SIDE, name, change);
    vec![
        length("a side less", |call| drop_last(&mut call.sides)),
        length("a side more", |call| call.sides.push(0)),
        side("first side 2", |call| call.sides[0] = 2),
        side("last side 255", |call| *last(&mut call.sides) = 255),
    ]
}

/// Rule 18 on the lent part one.
fn part_one() -> Vec<Misuse<PartCall>> {
    let length = |name, change| Misuse::new(refusal::LENGTH, name, change);
    vec![
        length("part one short", |call| drop_last(&mut call.part_one)),
        length("part one long", |call| call.part_one.push(0)),
        length("no part one", |call| call.part_one.clear()),
        length("part one of the other form", |call| {
            length_of_other_form(call.inputs.parameters.form, &mut call.part_one);
        }),
    ]
}

/// Rule 18 on the lent part two.
fn part_two() -> Vec<Misuse<PartCall>> {
    let length = |name, change| Misuse::new(refusal::LENGTH, name, change);
    vec![
        length("part two short", |call| drop_last(&mut call.part_two)),
        length("part two long", |call| call.part_two.push(0)),
        length("no part two", |call| call.part_two.clear()),
        length("a byte of part one in part two", |call| {
            let byte = call.part_one.pop().unwrap_or(0);
            call.part_two.insert(0, byte);
        }),
        length("part two of the other form", |call| {
            length_of_other_form(call.inputs.parameters.form, &mut call.part_two);
        }),
    ]
}
