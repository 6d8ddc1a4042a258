//! The servers' writing: three parts, mask and sides given or drawn.

use super::columns::{column, composed, is_permutation, third_offsets};
use super::drawing::{drawn_mask, drawn_sides, seed};
use super::tablet::{ballot_command, halves, openings, SplitVote};
use super::terms::*;

/// The inputs of every part, in document 01's flat order.
#[derive(Clone, Debug, PartialEq, Eq)]
pub struct Inputs {
    pub parameters: Parameters,
    pub ids: Vec<u32>,
    pub votes: Vec<u32>,
    pub numbers: Vec<u32>,
    pub permutations: Vec<u16>,
    pub keys: Vec<u8>,
}

impl Inputs {
    /// Whether every slice has its due length.
    fn due_lengths(&self) -> bool {
        let (n, mn) = (self.parameters.ballots(), self.mn());
        self.ids.len() == n
            && self.votes.len() == n
            && self.numbers.len() == 5 * n + 18 * mn
            && self.permutations.len() == 6 * mn
            && self.keys.len() == 192 * n + 384 * mn
    }

    fn mn(&self) -> usize {
        self.parameters.m as usize * self.parameters.ballots()
    }

    fn ids_rise(&self) -> bool {
        self.ids.windows(2).all(|pair| pair[0] < pair[1])
    }

    fn below_modulus(&self) -> bool {
        self.votes.iter().chain(&self.numbers).all(|&number| number < self.parameters.modulus)
    }

    fn permutations_stand(&self) -> bool {
        self.permutations.chunks(self.parameters.ballots()).all(is_permutation)
    }

    /// Whether a ballot would have a commitment of an earlier one. All slices have their lengths.
    fn copied(&self) -> bool {
        let mut earlier = EarlierBallots::default();
        let scheme = self.parameters.form.scheme();
        let six = |(j, &id)| scheme.six(Holder::Ballot { id }, &self.ballot_openings(j));
        self.ids.iter().enumerate().map(six).any(|six| earlier.copied_by(&six))
    }

    fn split_vote(&self, ballot: usize) -> SplitVote {
        let given = &self.numbers[5 * ballot..][..5];
        SplitVote {
            vote: self.votes[ballot],
            shares: [given[0], given[1]],
            firsts: [given[2], given[3], given[4]],
        }
    }

    pub fn ballot_openings(&self, ballot: usize) -> [Opening; 6] {
        let numbers = self.split_vote(ballot).six(self.parameters.modulus);
        openings(numbers, &self.keys[192 * ballot..][..192])
    }

    /// One list's nine numbers per place: three offset pairs, and a triple of first halves.
    fn list_numbers(&self, list: usize) -> &[u32] {
        let n = self.parameters.ballots();
        &self.numbers[5 * n + 9 * n * list..][..9 * n]
    }

    fn list_permutations(&self, list: usize) -> [&[u16]; 3] {
        let n = self.parameters.ballots();
        std::array::from_fn(|at| &self.permutations[n * (3 * list + at)..][..n])
    }

    /// The three rows as they leave the third column.
    fn mixed_rows(&self, list: usize) -> [Vec<u32>; 3] {
        let (n, modulus) = (self.parameters.ballots(), self.parameters.modulus);
        let rows: Vec<[u32; 3]> = (0..n).map(|j| self.split_vote(j).rows(modulus)).collect();
        let mut rows: [Vec<u32>; 3] = std::array::from_fn(|r| rows.iter().map(|x| x[r]).collect());
        for (at, permutation) in self.list_permutations(list).into_iter().enumerate() {
            let pairs = &self.list_numbers(list)[2 * n * at..][..2 * n];
            let first: Vec<u32> = pairs.iter().step_by(2).copied().collect();
            let second: Vec<u32> = pairs.iter().skip(1).step_by(2).copied().collect();
            let third = third_offsets(modulus, &first, &second);
            let offsets = [first, second, third];
            rows = std::array::from_fn(|r| column(modulus, &rows[r], &offsets[r], permutation));
        }
        rows
    }

    fn list_openings(&self, list: usize) -> Vec<[Opening; 6]> {
        let n = self.parameters.ballots();
        let rows = self.mixed_rows(list);
        let firsts = &self.list_numbers(list)[6 * n..];
        let keys = &self.keys[192 * n * (1 + list)..];
        let entry = |i: usize| {
            let numbers = std::array::from_fn(|r| rows[r][i]);
            let firsts = firsts[3 * i..][..3].try_into().unwrap();
            openings(halves(self.parameters.modulus, numbers, firsts), &keys[192 * i..][..192])
        };
        (0..n).map(entry).collect()
    }

    /// The place i with s(i) = j, for each ballot j.
    fn places(&self, list: usize) -> Vec<usize> {
        let mut places = vec![0; self.parameters.ballots()];
        for (place, ballot) in composed(self.list_permutations(list)).into_iter().enumerate() {
            places[ballot] = place;
        }
        places
    }
}

/// What the servers know of a board: all openings, and where each ballot went.
#[derive(Clone, Debug, PartialEq, Eq)]
pub struct Secrets {
    pub parameters: Parameters,
    /// What the commitments are made of: what the form says.
    pub scheme: Scheme,
    pub ids: Vec<u32>,
    pub ballots: Vec<[Opening; 6]>,
    pub lists: Vec<Vec<[Opening; 6]>>,
    /// For each list and ballot its place.
    pub places: Vec<Vec<usize>>,
    /// The votes to announce, rising.
    pub votes: Vec<u32>,
}

impl Secrets {
    pub fn new(inputs: &Inputs) -> Self {
        let parameters = inputs.parameters;
        Secrets {
            parameters,
            scheme: parameters.form.scheme(),
            ids: inputs.ids.clone(),
            ballots: (0..parameters.ballots()).map(|j| inputs.ballot_openings(j)).collect(),
            lists: (0..parameters.lists()).map(|list| inputs.list_openings(list)).collect(),
            places: (0..parameters.lists()).map(|list| inputs.places(list)).collect(),
            votes: sorted(&inputs.votes),
        }
    }

    /// t: the ballot's first halves less the list's.
    pub fn t(&self, list: usize, ballot: usize) -> u32 {
        let modulus = self.parameters.modulus;
        let firsts =
            |six: &[Opening; 6]| sum(modulus, &of_side(six, 0).map(|opening| opening.number));
        let entry = &self.lists[list][self.places[list][ballot]];
        difference(modulus, firsts(&self.ballots[ballot]), firsts(entry))
    }

    /// A ballot's commitments.
    pub fn ballot_commitments(&self, ballot: usize) -> [Commitment; 6] {
        self.scheme.six(Holder::Ballot { id: self.ids[ballot] }, &self.ballots[ballot])
    }

    /// An entry's commitments.
    pub fn entry_commitments(&self, list: usize, position: usize) -> [Commitment; 6] {
        self.scheme.six(Holder::entry(list, position), &self.lists[list][position])
    }

    /// The first command to 03.
    pub fn part_one(&self) -> Vec<u8> {
        let mut bytes = first_command(&self.parameters);
        for (id, ballot) in self.ids.iter().zip(&self.ballots) {
            bytes.extend(ballot_command(self.scheme, *id, ballot));
        }
        for (list, entries) in self.lists.iter().enumerate() {
            for position in 0..entries.len() {
                put_place(&mut bytes, 0x03, list, position);
                bytes.extend(self.entry_commitments(list, position).as_flattened());
            }
        }
        bytes
    }

    /// 04 and 05.
    pub fn part_two(&self, dice: &[u8], mask: u32) -> Vec<u8> {
        let mut bytes = vec![0x04];
        bytes.extend(dice);
        bytes.extend(mask.to_be_bytes());
        for list in lists_of(self.parameters.m, mask, true) {
            for ballot in 0..self.parameters.ballots() {
                put_place(&mut bytes, 0x05, list, ballot);
                bytes.extend((self.places[list][ballot] as u16).to_be_bytes());
                bytes.extend(self.t(list, ballot).to_be_bytes());
            }
        }
        bytes
    }

    /// 06 to 0B.
    pub fn part_three(&self, dice: &[u8], mask: u32, sides: &[u8]) -> Vec<u8> {
        let mut bytes = vec![0x06];
        bytes.extend(dice);
        for (ballot, &side) in sides.iter().enumerate() {
            self.put_halves(&mut bytes, ballot, side, mask);
        }
        for (index, vote) in self.votes.iter().enumerate() {
            bytes.push(0x09);
            bytes.extend((index as u16).to_be_bytes());
            bytes.extend(vote.to_be_bytes());
        }
        for list in lists_of(self.parameters.m, mask, false) {
            for (position, entry) in self.lists[list].iter().enumerate() {
                put_place(&mut bytes, 0x0A, list, position);
                put_openings(&mut bytes, entry);
            }
        }
        bytes.push(0x0B);
        bytes
    }

    /// 07 of one ballot, and its 08s.
    fn put_halves(&self, bytes: &mut Vec<u8>, ballot: usize, side: u8, mask: u32) {
        bytes.push(0x07);
        bytes.extend((ballot as u16).to_be_bytes());
        bytes.push(side);
        put_openings(bytes, &of_side(&self.ballots[ballot], side));
        for list in lists_of(self.parameters.m, mask, true) {
            let position = self.places[list][ballot];
            put_place(bytes, 0x08, list, position);
            put_openings(bytes, &of_side(&self.lists[list][position], side));
        }
    }
}

/// 01, or 0C with the election's number before M.
pub fn first_command(parameters: &Parameters) -> Vec<u8> {
    let mut bytes = vec![parameters.form.code()];
    if let Form::Numbered(election) = parameters.form {
        bytes.extend(election.to_be_bytes());
    }
    bytes.extend(parameters.modulus.to_be_bytes());
    bytes.extend((parameters.n as u16).to_be_bytes());
    bytes.push(parameters.m as u8);
    bytes
}

fn put_place(bytes: &mut Vec<u8>, code: u8, list: usize, index: usize) {
    bytes.extend([code, list as u8]);
    bytes.extend((index as u16).to_be_bytes());
}

fn put_openings(bytes: &mut Vec<u8>, openings: &[Opening]) {
    openings.iter().for_each(|opening| bytes.extend(opening.to_bytes()));
}

/// Part two's mask: given, or drawn on part one as lent.
#[derive(Clone, Copy, Debug)]
pub enum MaskSource<'a> {
    Given(u32),
    Drawn { part_one: &'a [u8] },
}

/// Part three's sides: given, or drawn on parts one and two as lent.
#[derive(Clone, Copy, Debug)]
pub enum SidesSource<'a> {
    Given(&'a [u8]),
    Drawn { part_one: &'a [u8], part_two: &'a [u8] },
}

/// What a part is given beside the inputs; None where it is given nothing of the kind.
#[derive(Default)]
pub(super) struct Given<'a> {
    pub dice: Option<&'a [u8]>,
    pub mask: Option<u32>,
    pub sides: Option<&'a [u8]>,
}

/// 3, then 18, then the rest in rising number, each over the whole input. `lent` has the further
/// slices' lengths, each with the due one.
pub(super) fn check(inputs: &Inputs, given: &Given, lent: &[(usize, usize)]) -> Result<(), u8> {
    if !inputs.parameters.within_limits() {
        return Err(refusal::LIMITS);
    }
    let m = inputs.parameters.m;
    let dice = given.dice.unwrap_or(&[b'1'; DICE]);
    let rules = [
        (refusal::LENGTH, inputs.due_lengths() && lent.iter().all(|(length, due)| length == due)),
        (refusal::ID, inputs.ids_rise()),
        (refusal::DICE, dice.iter().all(die_is_fair)),
        (refusal::MASK_SHAPE, given.mask.is_none_or(|mask| mask_stands(m, mask))),
        (refusal::NUMBER, inputs.below_modulus()),
        (refusal::SIDE, given.sides.is_none_or(|sides| sides.iter().all(|&side| side <= 1))),
        (refusal::PERMUTATION, inputs.permutations_stand()),
    ];
    match rules.iter().find(|(_, kept)| !kept) {
        Some(&(number, _)) => Err(number),
        None if inputs.copied() => Err(refusal::COPIED_BALLOT),
        None => Ok(()),
    }
}

/// The lengths due, 0 where the parameters are outside their limits.
pub(super) fn due_lengths(inputs: &Inputs) -> [usize; 3] {
    match inputs.parameters.within_limits() {
        true => inputs.parameters.part_lengths(),
        false => [0; 3],
    }
}

/// Part one, or 3, 18, 5, 10, 19, 21.
pub fn part_one(inputs: &Inputs, out: &mut [u8]) -> Result<(), u8> {
    let [due, _, _] = due_lengths(inputs);
    check(inputs, &Given::default(), &[(out.len(), due)])?;
    out.copy_from_slice(&Secrets::new(inputs).part_one());
    Ok(())
}

/// Part two, or 3, 18, 5, 6, 7, 10, 19, 21.
pub fn part_two(inputs: &Inputs, dice: &[u8], mask: MaskSource, out: &mut [u8]) -> Result<(), u8> {
    let [due_one, due_two, _] = due_lengths(inputs);
    let (given, length_one) = match mask {
        MaskSource::Given(mask) => (Some(mask), due_one),
        MaskSource::Drawn { part_one } => (None, part_one.len()),
    };
    let lent = [(dice.len(), DICE), (length_one, due_one), (out.len(), due_two)];
    check(inputs, &Given { dice: Some(dice), mask: given, sides: None }, &lent)?;
    let mask = match mask {
        MaskSource::Given(mask) => mask,
        MaskSource::Drawn { part_one } => drawn_mask(inputs.parameters.m, &seed(dice, part_one)),
    };
    out.copy_from_slice(&Secrets::new(inputs).part_two(dice, mask));
    Ok(())
}

/// The mask that part two has.
pub fn mask_of(part_two: &[u8]) -> u32 {
    u32::from_be_bytes(part_two[31..35].try_into().unwrap())
}

/// Part three, or 3, 18, 5, 6, 7, 10, 11, 19, 21.
pub fn part_three(
    inputs: &Inputs,
    dice: &[u8],
    mask: u32,
    sides: SidesSource,
    out: &mut [u8],
) -> Result<(), u8> {
    let n = inputs.parameters.ballots();
    let [due_one, due_two, due_three] = due_lengths(inputs);
    let mut lent = vec![(dice.len(), DICE), (out.len(), due_three)];
    let given = match sides {
        SidesSource::Given(sides) => {
            lent.push((sides.len(), n));
            Some(sides)
        }
        SidesSource::Drawn { part_one, part_two } => {
            lent.extend([(part_one.len(), due_one), (part_two.len(), due_two)]);
            None
        }
    };
    check(inputs, &Given { dice: Some(dice), mask: Some(mask), sides: given }, &lent)?;
    let sides = match sides {
        SidesSource::Given(sides) => sides.to_vec(),
        SidesSource::Drawn { part_one, part_two } => {
            drawn_sides(n, &seed(dice, &[part_one, part_two].concat()))
        }
    };
    out.copy_from_slice(&Secrets::new(inputs).part_three(dice, mask, &sides));
    Ok(())
}
