//! Copied ballots: inputs of which one ballot has an opening of another, or has one twice, boards on
//! which a commitment is posted again, and records that end behind their ballots, with any
//! commitments. With 01 equal openings make equal commitments; with 0C a place tells them apart.

use super::damage::Forgery;
use super::Layout;
use crate::random::Random;
use crate::reference::judge::{Fault, Judging};
use crate::reference::terms::{refusal, sorted, sum, Commitment, Form, Opening, Parameters};
use crate::reference::writer::{first_command, Inputs, Secrets};

/// One of a ballot's six places, in the order u1, v1, u2, v2, u3, v3.
#[derive(Clone, Copy, Debug, PartialEq, Eq)]
pub struct Slot {
    pub ballot: usize,
    pub slot: usize,
}

/// All 36 pairs of a ballot's places with another's.
pub fn pairs_of_places() -> impl Iterator<Item = (usize, usize)> {
    (0..36).map(|pair| (pair / 6, pair % 6))
}

/// Every two of a ballot's places.
pub fn pairs_inside() -> impl Iterator<Item = (usize, usize)> {
    pairs_of_places().filter(|(first, second)| first < second)
}

/// Gives a ballot these six openings, with the vote and shares that they are the halves of.
pub fn put_ballot(inputs: &mut Inputs, ballot: usize, six: [Opening; 6]) {
    let modulus = inputs.parameters.modulus;
    let numbers = six.map(|opening| opening.number);
    let [x, y] = [0, 2].map(|slot| sum(modulus, &numbers[slot..slot + 2]));
    inputs.votes[ballot] = sum(modulus, &numbers);
    inputs.numbers[5 * ballot..][..5].copy_from_slice(&[x, y, numbers[0], numbers[2], numbers[4]]);
    for (key, opening) in inputs.keys[192 * ballot..][..192].chunks_mut(32).zip(six) {
        key.copy_from_slice(&opening.key);
    }
}

/// Puts this opening at one place of a ballot; the other five stay.
pub fn put_opening(inputs: &mut Inputs, to: Slot, opening: Opening) {
    let mut six = inputs.ballot_openings(to.ballot);
    six[to.slot] = opening;
    put_ballot(inputs, to.ballot, six);
}

/// Makes one opening equal to another, in the same ballot or in two.
pub fn copy_opening(inputs: &mut Inputs, from: Slot, to: Slot) {
    let opening = inputs.ballot_openings(from.ballot)[from.slot];
    put_opening(inputs, to, opening);
}

/// Casts a ballot again: vote, numbers and keys, under the id of another.
pub fn copy_ballot(inputs: &mut Inputs, from: usize, to: usize) {
    let six = inputs.ballot_openings(from);
    put_ballot(inputs, to, six);
}

/// An honest board, and copies of its ballots' commitments, one after the other.
#[derive(Clone)]
pub struct Copied {
    pub inputs: Inputs,
    pub copies: Vec<(Slot, Slot)>,
}

impl Copied {
    pub fn none(inputs: Inputs) -> Self {
        Copied { inputs, copies: Vec::new() }
    }

    /// One commitment, from a ballot and slot to another.
    pub fn and(mut self, from: (usize, usize), to: (usize, usize)) -> Self {
        let slot = |(ballot, slot)| Slot { ballot, slot };
        self.copies.push((slot(from), slot(to)));
        self
    }

    /// All six of a ballot.
    pub fn and_ballot(self, from: usize, to: usize) -> Self {
        (0..6).fold(self, |copied, slot| copied.and((from, slot), (to, slot)))
    }

    /// One at all six places of its ballot.
    pub fn and_inside(self, ballot: usize, slot: usize) -> Self {
        (0..6).fold(self, |copied, to| copied.and((ballot, slot), (ballot, to)))
    }

    /// The inputs with the openings copied.
    pub fn openings(&self) -> Inputs {
        let mut inputs = self.inputs.clone();
        self.copies.iter().for_each(|&(from, to)| copy_opening(&mut inputs, from, to));
        inputs
    }

    /// The honest board with the commitments copied as they are posted: whatever is opened of them
    /// is what their places had.
    pub fn posted(&self, random: &mut Random, judging: Judging) -> Vec<u8> {
        let secrets = Secrets::new(&self.inputs);
        let mut six: Vec<_> = (0..self.inputs.parameters.ballots())
            .map(|ballot| secrets.ballot_commitments(ballot))
            .collect();
        let mut forgery = Forgery::new(secrets, random.mask(self.inputs.parameters.m));
        for (from, to) in &self.copies {
            six[to.ballot][to.slot] = six[from.ballot][from.slot];
            let at = forgery.layout.ballot_commitment(to.ballot, to.slot);
            forgery.set(at, &six[to.ballot][to.slot]);
        }
        forgery.record(random, judging)
    }

    /// What is found on that board where copies stand: 13 at the first ballot of which a changed
    /// commitment is opened, if there is one.
    pub fn found_posted(&self, record: &[u8]) -> Result<Vec<u32>, Fault> {
        let layout = Layout::new(&self.inputs.parameters);
        let half = |ballot| layout.ballot_half(ballot);
        let opened = |to: &&Slot| usize::from(record[half(to.ballot) + 3]) == to.slot % 2;
        let changed = self.copies.iter().filter(|(from, to)| from != to).map(|(_, to)| to);
        match changed.filter(opened).map(|to| half(to.ballot)).min() {
            Some(place) => Err(Fault { number: refusal::OPENING, place }),
            None => Ok(sorted(&self.inputs.votes)),
        }
    }
}

/// The record that servers would write who do not mind copies.
pub fn record_of(random: &mut Random, inputs: &Inputs, judging: Judging) -> Vec<u8> {
    let mask = random.mask(inputs.parameters.m);
    Forgery::new(Secrets::new(inputs), mask).record(random, judging)
}

/// The first command and ballots with these commitments, ids from 0, and nothing behind them: the
/// judge answers 1 there, unless it finds something before.
pub fn ballots_alone(form: Form, ballots: &[[Commitment; 6]]) -> Vec<u8> {
    let parameters = Parameters { form, modulus: 100, n: ballots.len() as u32, m: 1 };
    let mut record = first_command(&parameters);
    for (id, six) in (0u32..).zip(ballots) {
        record.push(0x02);
        record.extend(id.to_be_bytes());
        record.extend(six.as_flattened());
    }
    record
}

/// Commitments of any bytes.
pub fn commitments(random: &mut Random, ballots: usize) -> Vec<[Commitment; 6]> {
    let mut commitment = || random.bytes(32).try_into().unwrap();
    (0..ballots).map(|_| std::array::from_fn(|_| commitment())).collect()
}

/// Lets every entry of every list have the openings of the ballot that it comes from: nothing is
/// added, and first halves and keys are the ballot's.
pub fn mirror_ballots(inputs: &mut Inputs) {
    let Parameters { n, m, .. } = inputs.parameters;
    let (n, lists) = (n as usize, 2 * m as usize);
    let moved: Vec<usize> = inputs.permutations[..n].iter().map(|&from| from.into()).collect();
    let still: Vec<u16> = (0..n as u16).collect();
    let of_list = [&inputs.permutations[..n], &still, &still].concat();
    inputs.permutations = of_list.repeat(lists);
    let (ballots, keys) = (inputs.numbers[..5 * n].to_vec(), inputs.keys[..192 * n].to_vec());
    let firsts: Vec<u32> = moved.iter().flat_map(|&j| ballots[5 * j + 2..][..3].to_vec()).collect();
    let entries: Vec<u8> = moved.iter().flat_map(|&j| keys[192 * j..][..192].to_vec()).collect();
    inputs.numbers = [ballots, [vec![0; 6 * n], firsts].concat().repeat(lists)].concat();
    inputs.keys = [keys, entries.repeat(lists)].concat();
}
