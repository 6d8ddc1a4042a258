//! All throws of an election, what somebody answers to each, and how many of them a false result
//! passes: written from the claim's words, and counted throw by throw.

pub mod posters;

use std::collections::BTreeMap;
use std::rc::Rc;

use crate::boards::Layout;
use crate::reference::terms::{lists_of, mask_stands, sum, Parameters};

/// What the dice decide: which lists are compared, and which side of each ballot is shown.
#[derive(Clone, Debug, PartialEq, Eq, PartialOrd, Ord)]
pub struct Throw {
    pub mask: u32,
    pub sides: Vec<u8>,
}

/// Every choice of m lists out of 2m, found among all masks of 2m bits.
pub fn masks(m: u32) -> Vec<u32> {
    (0..1 << (2 * m)).filter(|&mask| mask_stands(m, mask)).collect()
}

/// Every choice of n sides.
pub fn all_sides(n: usize) -> Vec<Vec<u8>> {
    (0..1 << n).map(|bits: u32| (0..n).map(|j| (bits >> j & 1) as u8).collect()).collect()
}

pub fn throws(m: u32, n: usize) -> Vec<Throw> {
    let of_mask = |mask| all_sides(n).into_iter().map(move |sides| Throw { mask, sides });
    masks(m).into_iter().flat_map(of_mask).collect()
}

/// The binomial coefficient, row by row: each is the sum of the two above it.
pub fn binomial(n: u32, k: u32) -> u64 {
    let mut row = vec![1];
    for _ in 0..n {
        let inner: Vec<u64> = row.windows(2).map(|pair| pair[0] + pair[1]).collect();
        row = [&[1][..], &inner, &[1]].concat();
    }
    row.get(k as usize).copied().unwrap_or(0)
}

/// C: how many choices of m lists out of 2m there are.
pub fn choices(m: u32) -> u64 {
    binomial(2 * m, m)
}

/// How many throws a result may pass that is false in at least k of n places: max(2^n, C 2^(n-k)).
pub fn bound(m: u32, n: usize, k: usize) -> u64 {
    (1 << n).max(choices(m) << (n - k))
}

/// The bound is one in so many of all throws, n being at least k.
pub fn one_in(m: u32, k: usize) -> u64 {
    choices(m).min(1 << k)
}

/// In how many places two lists of n votes differ, whatever their order: n less the sum over x of
/// the smaller of the two counts of x.
pub fn distance(a: &[u32], b: &[u32]) -> usize {
    assert_eq!(a.len(), b.len());
    let first = |place: &usize| !a[..*place].contains(&a[*place]);
    let smaller = |x| count(a, x).min(count(b, x));
    a.len() - (0..a.len()).filter(first).map(|place| smaller(a[place])).sum::<usize>()
}

/// How often x is among the votes.
pub fn count(votes: &[u32], x: u32) -> usize {
    votes.iter().filter(|&&vote| vote == x).count()
}

/// An accepted answer to a throw.
#[derive(Debug)]
pub struct Accepted {
    pub throw: Throw,
    pub record: Vec<u8>,
    pub votes: Vec<u32>,
    /// The mask that the record has.
    mask: u32,
    /// Of each ballot the side that the record shows, and the sum of its three numbers.
    halves: Vec<(u8, u32)>,
}

impl Accepted {
    fn new(parameters: &Parameters, throw: Throw, record: Vec<u8>, votes: Vec<u32>) -> Self {
        assert_eq!(record.len(), parameters.record_length());
        let layout = Layout::new(parameters);
        let number = |place: usize| u32::from_be_bytes(record[place..][..4].try_into().unwrap());
        let half = |j| {
            let place = layout.ballot_half(j);
            let numbers = [0, 1, 2].map(|row| number(place + 4 + 36 * row + 32));
            (record[place + 3], sum(parameters.modulus, &numbers))
        };
        let halves = (0..parameters.ballots()).map(half).collect();
        let mask = number(layout.first_dice() + 31);
        Accepted { throw, votes, mask, halves, record }
    }
}

/// What a family of answers has to keep.
#[derive(Clone, Copy, Debug, PartialEq, Eq)]
pub enum Condition {
    /// The same bytes before command 04.
    Posted,
    /// The mask that was thrown.
    Mask,
    /// The sides that were thrown.
    Sides,
    /// For equal masks the same bytes before command 06.
    Links,
}

/// The accepted answers of a family: to each throw there is one record or none.
#[derive(Clone)]
pub struct Answers {
    pub parameters: Parameters,
    pub accepted: Vec<Rc<Accepted>>,
}

impl Answers {
    /// Asks for an answer to every throw; the judge tells the votes of those that he accepts.
    pub fn of(
        parameters: Parameters,
        answer: impl Fn(&Throw) -> Option<Vec<u8>>,
        judge: impl Fn(&[u8]) -> Option<Vec<u32>>,
    ) -> Self {
        let accepted = |throw: Throw| {
            let record = answer(&throw)?;
            let votes = judge(&record)?;
            Some(Rc::new(Accepted::new(&parameters, throw, record, votes)))
        };
        let throws = throws(parameters.m, parameters.ballots());
        Answers { parameters, accepted: throws.into_iter().filter_map(accepted).collect() }
    }

    /// The first condition that the accepted answers break.
    pub fn broken(&self) -> Option<Condition> {
        let layout = Layout::new(&self.parameters);
        let posted = &self.accepted.first()?.record[..layout.first_dice()];
        let mut links = BTreeMap::new();
        self.accepted.iter().find_map(|accepted| {
            let Accepted { throw, record, mask, halves, .. } = &**accepted;
            let before = &record[..layout.second_dice()];
            let due = *links.entry(throw.mask).or_insert(before);
            let kept = [
                (Condition::Posted, record.starts_with(posted)),
                (Condition::Mask, *mask == throw.mask),
                (Condition::Sides, halves.iter().map(|half| half.0).eq(throw.sides.clone())),
                (Condition::Links, before == due),
            ];
            kept.into_iter().find(|(_, kept)| !kept).map(|(condition, _)| condition)
        })
    }

    /// The vote of each ballot of which both sides are shown: the sum of its six numbers.
    pub fn committed(&self) -> Vec<Option<u32>> {
        let shown = |j: usize, side: u8| {
            let mut halves = self.accepted.iter().map(|accepted| accepted.halves[j]);
            halves.find(|half| half.0 == side).map(|half| half.1)
        };
        let vote = |j| Some(sum(self.parameters.modulus, &[shown(j, 0)?, shown(j, 1)?]));
        (0..self.parameters.ballots()).map(vote).collect()
    }

    /// Whether these votes are the committed ones wherever those are shown.
    pub fn fits(&self, c: &[u32]) -> bool {
        assert_eq!(c.len(), self.parameters.ballots());
        self.committed().iter().zip(c).all(|(vote, c)| vote.is_none_or(|vote| vote == *c))
    }

    /// How many throws are answered with votes that differ from these in at least k places.
    pub fn differing(&self, k: usize, c: &[u32]) -> u64 {
        let differs = |accepted: &&Rc<Accepted>| distance(&accepted.votes, c) >= k;
        self.accepted.iter().filter(differs).count() as u64
    }

    /// Whether a posted place is opened in two ways.
    pub fn opened_twice(&self) -> bool {
        let mut known = BTreeMap::new();
        let openings = self.accepted.iter().flat_map(|accepted| self.openings(accepted));
        openings
            .into_iter()
            .any(|(place, opening)| *known.entry(place).or_insert(opening) != opening)
    }

    /// Every opening of a record, by where its commitment stands.
    fn openings<'a>(&self, accepted: &'a Accepted) -> Vec<(usize, &'a [u8])> {
        let Accepted { record, mask, halves, .. } = accepted;
        let layout = Layout::new(&self.parameters);
        let lists = |compared| lists_of(self.parameters.m, *mask, compared).into_iter().enumerate();
        let mut commands = Vec::new();
        for (j, &(side, _)) in halves.iter().enumerate() {
            let slots = [0, 2, 4].map(|slot| slot + usize::from(side));
            let ballot = slots.map(|slot| layout.ballot_commitment(j, slot));
            commands.push((layout.ballot_half(j), ballot.to_vec()));
            for (rank, list) in lists(true) {
                let place = layout.list_half(j, rank);
                let position = u16::from_be_bytes([record[place + 2], record[place + 3]]).into();
                let entry = slots.map(|slot| layout.entry_commitment(list, position, slot));
                commands.push((place, entry.to_vec()));
            }
        }
        for (rank, list) in lists(false) {
            commands.extend((0..halves.len()).map(|position| {
                let entry = (0..6).map(|slot| layout.entry_commitment(list, position, slot));
                (layout.full_opening(rank, position), entry.collect())
            }));
        }
        let openings = |(place, commitments): (usize, Vec<usize>)| {
            let of_command = record[place + 4..].chunks(36);
            commitments.into_iter().zip(of_command).collect::<Vec<_>>()
        };
        commands.into_iter().flat_map(openings).collect()
    }
}
