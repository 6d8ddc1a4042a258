//! Ranked votes by instant runoff.

use std::cmp::Reverse;
use std::collections::{BTreeMap, BTreeSet};

use super::terms::refusal;

pub const MOST_CANDIDATES: u32 = 9;

/// A candidate's entry in the table, laid out as the C face has it.
#[derive(Clone, Copy, Debug, PartialEq, Eq)]
#[repr(C)]
pub struct Candidate {
    pub count: u64,
    pub left: u32,
}

/// The winner's number, if somebody wins, and how many votes are blank and spoiled.
#[derive(Clone, Copy, Debug, PartialEq, Eq)]
pub struct Outcome {
    pub winner: Option<u32>,
    pub blank: u64,
    pub spoiled: u64,
}

/// Writes the table and answers the outcome, or 20, then 18.
pub fn runoff(votes: &[u32], candidates: u32, table: &mut [Candidate]) -> Result<Outcome, u8> {
    if !(1..=MOST_CANDIDATES).contains(&candidates) {
        return Err(refusal::CANDIDATES);
    }
    if table.len() != candidates as usize {
        return Err(refusal::LENGTH);
    }
    let counted = Counted::new(votes, candidates);
    for (entry, number) in table.iter_mut().zip(1..) {
        *entry = counted.entry(number);
    }
    Ok(counted.outcome())
}

/// What a vote says.
#[derive(Clone, Debug, PartialEq, Eq)]
enum Vote {
    Blank,
    Spoiled,
    Ranking(Vec<u32>),
}

fn read(vote: u32, candidates: u32) -> Vote {
    let ranking = digits(vote);
    let distinct = ranking.iter().collect::<BTreeSet<_>>().len() == ranking.len();
    let known = ranking.iter().all(|digit| (1..=candidates).contains(digit));
    match vote {
        0 => Vote::Blank,
        _ if distinct && known => Vote::Ranking(ranking),
        _ => Vote::Spoiled,
    }
}

/// The decimal digits of a number, from the left; none of 0.
fn digits(number: u32) -> Vec<u32> {
    match number {
        0 => Vec::new(),
        _ => [digits(number / 10), vec![number % 10]].concat(),
    }
}

/// How a round ends.
#[derive(Clone, Copy, Debug, PartialEq, Eq)]
pub enum End {
    Wins(u32),
    Leaves(u32),
    NoVoteCounts,
}

/// The count of each candidate that stands in a round, and its end.
#[derive(Clone, Debug)]
pub struct Round {
    pub counts: BTreeMap<u32, u64>,
    pub end: End,
}

impl Round {
    fn new(rankings: &[Vec<u32>], standing: &BTreeSet<u32>) -> Self {
        let mut counts: BTreeMap<u32, u64> = standing.iter().map(|&number| (number, 0)).collect();
        for ranking in rankings {
            if let Some(first) = ranking.iter().find(|number| standing.contains(number)) {
                *counts.get_mut(first).unwrap() += 1;
            }
        }
        let end = end(&counts);
        Round { counts, end }
    }
}

fn end(counts: &BTreeMap<u32, u64>) -> End {
    let counting: u64 = counts.values().sum();
    let fewest = |(&number, &count): &(&u32, &u64)| (count, Reverse(number));
    let (&last, _) = counts.iter().min_by_key(fewest).expect("somebody stands");
    match counts.iter().find(|(_, &count)| 2 * count > counting) {
        _ if counting == 0 => End::NoVoteCounts,
        Some((&winner, _)) => End::Wins(winner),
        None => End::Leaves(last),
    }
}

/// Votes counted round by round, to the last.
#[derive(Clone, Debug)]
pub struct Counted {
    pub rounds: Vec<Round>,
    pub blank: u64,
    pub spoiled: u64,
}

impl Counted {
    /// For 1 to 9 candidates.
    pub fn new(votes: &[u32], candidates: u32) -> Self {
        let (mut rankings, mut blank, mut spoiled) = (Vec::new(), 0, 0);
        for &vote in votes {
            match read(vote, candidates) {
                Vote::Blank => blank += 1,
                Vote::Spoiled => spoiled += 1,
                Vote::Ranking(ranking) => rankings.push(ranking),
            }
        }
        Counted { rounds: rounds(&rankings, candidates), blank, spoiled }
    }

    pub fn outcome(&self) -> Outcome {
        let winner = self.rounds.iter().find_map(|round| match round.end {
            End::Wins(winner) => Some(winner),
            _ => None,
        });
        Outcome { winner, blank: self.blank, spoiled: self.spoiled }
    }

    /// The count in the last round in which a candidate stood, and the round, from 1, that ended
    /// with its leaving, or 0.
    fn entry(&self, number: u32) -> Candidate {
        let counts = self.rounds.iter().filter_map(|round| round.counts.get(&number));
        let count = *counts.last().expect("everybody stands in the first round");
        let left = self.rounds.iter().position(|round| round.end == End::Leaves(number));
        Candidate { count, left: left.map_or(0, |place| place as u32 + 1) }
    }
}

fn rounds(rankings: &[Vec<u32>], candidates: u32) -> Vec<Round> {
    let mut standing: BTreeSet<u32> = (1..=candidates).collect();
    let mut rounds = Vec::new();
    loop {
        let round = Round::new(rankings, &standing);
        let end = round.end;
        rounds.push(round);
        match end {
            End::Leaves(number) => standing.remove(&number),
            End::Wins(_) | End::NoVoteCounts => return rounds,
        };
    }
}
