//! Honest inputs and boards of any shape, and where each command of a record stands.

pub mod calls;
pub mod copies;
pub mod damage;
pub mod samples;

use std::collections::BTreeSet;

use crate::random::Random;
use crate::reference::election::{election, DiceTable};
use crate::reference::terms::{Edition, Form, Parameters, MAX_BALLOTS, MAX_M, NOW};
use crate::reference::writer::{self, mask_of, Inputs};

/// Moduli at the limits, around powers of two, and in between.
pub const MODULI: [u32; 9] =
    [2, 3, 9, 100, 65_537, 0x7FFF_FFFF, 0x8000_0000, 0xFFFF_FFFE, u32::MAX];

/// Numbers of elections: at the limits of a byte and of the type, with bytes that may be taken for
/// commands, and one whose bytes all differ.
pub const ELECTIONS: [u32; 12] = [
    0,
    1,
    255,
    256,
    65_536,
    0x0100_0000,
    0x0102_0304,
    0x0202_0202,
    0x0B0B_0B0B,
    0x0C0C_0C0C,
    1 << 31,
    u32::MAX,
];

/// Both forms; the number's bytes differ from each other.
pub const FORMS: [Form; 2] = [Form::Unnumbered, Form::Numbered(0xE1EC_7104)];

/// Numbers of ballots: one byte does not count the first, document 01 did not know the second, and
/// the last is the most.
pub const MANY: [u32; 4] = [257, 1025, 4095, MAX_BALLOTS];

/// Ballots, positions and indices at both sides of where a byte or the former limit ends, and at
/// both ends of the most ballots.
pub const FAR_PLACES: [usize; 10] = [0, 1, 255, 256, 257, 1023, 1024, 1025, 4094, 4095];

/// Other places that this one is told apart from by one byte or one bit, or by the bytes' order.
pub fn mistaken(place: u16) -> BTreeSet<u16> {
    let bytes = [place ^ 0x0100, place ^ 0x0001, place & 0x00FF, place.swap_bytes()];
    let bits = [place ^ 1024, place % 1024, place | 4096, place | 0x8000];
    bytes.into_iter().chain(bits).filter(|&other| other != place).collect()
}

/// The first command of this form with this n, and nothing behind it.
pub fn first_command(form: Form, n: u16) -> Vec<u8> {
    writer::first_command(&Parameters { form, modulus: 2, n: n.into(), m: 1 })
}

/// A record that starts with 01 with 0C and this number in its place; its commitments stay.
pub fn numbered(record: &[u8], election: u32) -> Vec<u8> {
    assert_eq!(record[0], 0x01);
    [&[0x0C][..], &election.to_be_bytes(), &record[1..]].concat()
}

/// Either form, with any number.
pub fn form(random: &mut Random) -> Form {
    match random.below(4) {
        0 | 1 => Form::Unnumbered,
        2 => Form::Numbered(random.pick(&ELECTIONS)),
        _ => Form::Numbered(random.word() as u32),
    }
}

/// Parameters of either form with at most `n` ballots and 2 * `m` lists.
pub fn parameters(random: &mut Random, n: u32, m: u32) -> Parameters {
    parameters_by(NOW, random, n, m)
}

/// The same in a form that the edition has.
pub fn parameters_by(edition: Edition, random: &mut Random, n: u32, m: u32) -> Parameters {
    assert!(n <= MAX_BALLOTS && m <= MAX_M);
    let form = if edition.numbered { form(random) } else { Form::Unnumbered };
    let modulus = random.pick(&MODULI);
    Parameters { form, modulus, n: 1 + random.number(n), m: 1 + random.number(m) }
}

/// Inputs that no part refuses; votes repeat.
pub fn inputs(random: &mut Random, parameters: Parameters) -> Inputs {
    let Parameters { modulus, n, m, .. } = parameters;
    let mn = (m * n) as usize;
    let n = n as usize;
    let candidates: Vec<u32> = (0..1 + n / 2).map(|_| random.number(modulus)).collect();
    Inputs {
        parameters,
        ids: ids(random, n),
        votes: (0..n).map(|_| random.pick(&candidates)).collect(),
        numbers: (0..5 * n + 18 * mn).map(|_| random.number(modulus)).collect(),
        permutations: (0..6 * m).flat_map(|_| random.permutation(n)).collect(),
        keys: random.bytes(192 * n + 384 * mn),
    }
}

/// The same with ballot j at place `place(j)` of every list.
pub fn inputs_with_places(
    random: &mut Random,
    parameters: Parameters,
    place: impl Fn(usize) -> usize,
) -> Inputs {
    let still: Vec<u16> = (0..parameters.n as u16).collect();
    let mut first = still.clone();
    still.iter().for_each(|&j| first[place(usize::from(j))] = j);
    let of_list = [first, still.clone(), still].concat();
    Inputs { permutations: of_list.repeat(parameters.lists()), ..inputs(random, parameters) }
}

/// Slices of the lengths that these parameters ask for, also outside their limits: every number is
/// 0 and nothing moves, so that no rule but the limits is broken.
pub fn still_inputs(random: &mut Random, parameters: Parameters) -> Inputs {
    let (n, mn) = (parameters.ballots(), parameters.m as usize * parameters.ballots());
    Inputs {
        parameters,
        ids: (0..parameters.n).collect(),
        votes: vec![0; n],
        numbers: vec![0; 5 * n + 18 * mn],
        permutations: (0..6 * parameters.m).flat_map(|_| 0..n as u16).collect(),
        keys: random.bytes(192 * n + 384 * mn),
    }
}

/// Any modulus, half of the time one of those at the limits.
pub fn modulus(random: &mut Random) -> u32 {
    match random.below(2) {
        0 => random.pick(&MODULI),
        _ => 2 + random.number(u32::MAX - 1),
    }
}

/// Ids that rise strictly: dense from 0, sparse, or spread over all 32 bits.
fn ids(random: &mut Random, n: usize) -> Vec<u32> {
    let step = random.pick(&[1, 3, u64::from(u32::MAX) / n as u64]);
    (0..n as u64).map(|j| (j * step + random.below(step)) as u32).collect()
}

/// A board as the servers wrote it.
pub struct Board {
    pub inputs: Inputs,
    pub mask: u32,
    pub parts: [Vec<u8>; 3],
}

impl Board {
    pub fn record(&self) -> Vec<u8> {
        self.parts.concat()
    }
}

/// Which of mask and sides are drawn; what is not drawn is given.
#[derive(Clone, Copy, Debug, PartialEq, Eq)]
pub struct Draws {
    pub mask: bool,
    pub sides: bool,
}

impl Draws {
    /// What the dice table gives; mask and sides count where they are not drawn.
    pub fn table<'a>(self, dice: [&'a [u8]; 2], mask: u32, sides: &'a [u8]) -> DiceTable<'a> {
        let [first_dice, second_dice] = dice;
        let (mask_given, sides_given) = (u32::from(!self.mask), u32::from(!self.sides));
        DiceTable { mask_given, first_dice, mask, sides_given, second_dice, sides }
    }
}

pub const NEITHER: Draws = Draws { mask: false, sides: false };
pub const BOTH: Draws = Draws { mask: true, sides: true };
pub const ALL_DRAWS: [Draws; 4] =
    [NEITHER, Draws { mask: true, sides: false }, Draws { mask: false, sides: true }, BOTH];

/// An honest board by the reference's writer, random where it is given something.
pub fn board(random: &mut Random, inputs: &Inputs, draws: Draws) -> Board {
    let dice = [random.dice(), random.dice()];
    board_with_dice(random, inputs, &dice, draws)
}

pub fn board_with_dice(
    random: &mut Random,
    inputs: &Inputs,
    dice: &[Vec<u8>; 2],
    draws: Draws,
) -> Board {
    let [mut one, mut two, mut three] =
        inputs.parameters.part_lengths().map(|length| random.bytes(length));
    let mask = if draws.mask { 0 } else { random.mask(inputs.parameters.m) };
    let sides = random.sides(inputs.parameters.ballots());
    let table = draws.table([&dice[0], &dice[1]], mask, &sides);
    let mut joined = vec![0; inputs.parameters.record_length()];
    election(inputs, &table, [&mut one, &mut two, &mut three, &mut joined]).unwrap();
    let mask = mask_of(&two);
    Board { inputs: inputs.clone(), mask, parts: [one, two, three] }
}

/// An honest board of random inputs.
pub fn honest(random: &mut Random, parameters: Parameters, draws: Draws) -> Board {
    let inputs = inputs(random, parameters);
    board(random, &inputs, draws)
}

/// Where each command of a record of this shape starts. `rank` counts the compared lists, or for
/// 0A the others.
#[derive(Clone, Copy, Debug)]
pub struct Layout {
    form: Form,
    n: usize,
    m: usize,
}

impl Layout {
    pub fn new(parameters: &Parameters) -> Self {
        Layout { form: parameters.form, n: parameters.ballots(), m: parameters.m as usize }
    }

    /// Where M stands in the first command; n is 4 bytes behind it, m 6.
    pub fn modulus(&self) -> usize {
        match self.form {
            Form::Unnumbered => 1,
            Form::Numbered(_) => 5,
        }
    }

    pub fn ballot(&self, j: usize) -> usize {
        self.modulus() + 7 + 197 * j
    }

    /// One of its six commitments.
    pub fn ballot_commitment(&self, j: usize, slot: usize) -> usize {
        self.ballot(j) + 5 + 32 * slot
    }

    pub fn entry(&self, list: usize, position: usize) -> usize {
        self.ballot(self.n) + 196 * (list * self.n + position)
    }

    /// One of its six commitments.
    pub fn entry_commitment(&self, list: usize, position: usize, slot: usize) -> usize {
        self.entry(list, position) + 4 + 32 * slot
    }

    pub fn first_dice(&self) -> usize {
        self.entry(2 * self.m, 0)
    }

    pub fn link(&self, rank: usize, ballot: usize) -> usize {
        self.first_dice() + 35 + 10 * (rank * self.n + ballot)
    }

    pub fn second_dice(&self) -> usize {
        self.link(self.m, 0)
    }

    pub fn ballot_half(&self, ballot: usize) -> usize {
        self.second_dice() + 31 + 112 * (1 + self.m) * ballot
    }

    pub fn list_half(&self, ballot: usize, rank: usize) -> usize {
        self.ballot_half(ballot) + 112 * (1 + rank)
    }

    pub fn vote(&self, index: usize) -> usize {
        self.ballot_half(self.n) + 7 * index
    }

    pub fn full_opening(&self, rank: usize, position: usize) -> usize {
        self.vote(self.n) + 220 * (rank * self.n + position)
    }

    pub fn end(&self) -> usize {
        self.full_opening(self.m, 0)
    }

    /// The start of every command, rising.
    pub fn commands(&self) -> Vec<usize> {
        let (n, m) = (self.n, self.m);
        let grid = |lists: usize| (0..lists).flat_map(move |l| (0..n).map(move |i| (l, i)));
        let mut places = vec![0, self.first_dice(), self.second_dice(), self.end()];
        places.extend((0..n).map(|j| self.ballot(j)));
        places.extend(grid(2 * m).map(|(list, i)| self.entry(list, i)));
        places.extend(grid(m).map(|(rank, j)| self.link(rank, j)));
        places.extend((0..n).map(|j| self.ballot_half(j)));
        places.extend(grid(m).map(|(rank, j)| self.list_half(j, rank)));
        places.extend((0..n).map(|index| self.vote(index)));
        places.extend(grid(m).map(|(rank, i)| self.full_opening(rank, i)));
        places.sort_unstable();
        places
    }
}
