//! Calls of the draw of the mask.

use super::misuse::{
    drop_last, further, last, length_of_other_form, other_form, Misusable, Misuse,
};
use crate::random::Random;
use crate::reference::terms::{refusal, Parameters, MAX_BALLOTS, MAX_M};

#[derive(Clone, Debug, PartialEq, Eq)]
pub struct DrawCall {
    pub parameters: Parameters,
    pub dice: Vec<u8>,
    pub part_one: Vec<u8>,
}

impl DrawCall {
    /// A call that is not refused; any bytes stand for part one.
    pub fn honest(random: &mut Random, parameters: Parameters) -> Self {
        let part_one = random.bytes(parameters.part_lengths()[0]);
        DrawCall { parameters, dice: random.dice(), part_one }
    }
}

impl Misusable for DrawCall {
    fn misuses(&self) -> Vec<Misuse<Self>> {
        let limit = |name, change| Misuse::new(refusal::LIMITS, name, change);
        let length = |name, change| Misuse::new(refusal::LENGTH, name, change);
        let die = |name, change| Misuse::new(refusal::DICE, name, change);
        vec![
            limit("M = 0", |call| call.parameters.modulus = 0),
            limit("M = 1", |call| call.parameters.modulus = 1),
            limit("n = 0", |call| call.parameters.n = 0),
            limit("n = 4,097", |call| call.parameters.n = 4097),
            limit("n highest", |call| call.parameters.n = u32::MAX),
            limit("m = 0", |call| call.parameters.m = 0),
            limit("m = 13", |call| call.parameters.m = 13),
            limit("m highest", |call| call.parameters.m = u32::MAX),
            length("another n", |call| further(&mut call.parameters.n, 1, MAX_BALLOTS)),
            length("1,024 ballots more", |call| {
                further(&mut call.parameters.n, 1024, MAX_BALLOTS);
            }),
            length("another m", |call| further(&mut call.parameters.m, 1, MAX_M)),
            length("29 dice", |call| drop_last(&mut call.dice)),
            length("31 dice", |call| call.dice.push(b'6')),
            length("no dice", |call| call.dice.clear()),
            length("part one short", |call| drop_last(&mut call.part_one)),
            length("part one long", |call| call.part_one.push(0)),
            length("no part one", |call| call.part_one.clear()),
            length("part one of the other form", |call| {
                length_of_other_form(call.parameters.form, &mut call.part_one);
            }),
            length("told the other form", |call| other_form(&mut call.parameters.form)),
            die("first die 0", |call| call.dice[0] = b'0'),
            die("last die 7", |call| *last(&mut call.dice) = b'7'),
            die("last die 255", |call| *last(&mut call.dice) = 255),
        ]
    }
}
