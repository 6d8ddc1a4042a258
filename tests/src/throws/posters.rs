//! Whoever posts: what he committed to, and what he says of it under each mask. Nothing is opened
//! but what he committed to.

use std::collections::{BTreeMap, BTreeSet};

use super::{masks, throws, Throw};
use crate::boards::{inputs, Layout};
use crate::random::Random;
use crate::reference::terms::{difference, lists_of, of_side, sorted, sum, Opening, Parameters};
use crate::reference::writer::{Inputs, Secrets};

/// What is committed, and for each ballot the side on which its links fit where lists are false.
#[derive(Clone)]
pub struct Poster {
    pub secrets: Secrets,
    pub guesses: Vec<u8>,
    pub dice: [Vec<u8>; 2],
}

/// What is said under a mask: by list and ballot the linked place and t, and the votes announced.
#[derive(Clone)]
pub struct Plan {
    pub places: Vec<Vec<usize>>,
    pub shifts: Vec<Vec<u32>>,
    pub votes: Vec<u32>,
}

/// Inputs in which these votes are cast.
pub fn inputs_of(random: &mut Random, parameters: Parameters, votes: &[u32]) -> Inputs {
    Inputs { votes: votes.to_vec(), ..inputs(random, parameters) }
}

impl Poster {
    /// Honest so far; what he guesses is of no account where the lists are true.
    pub fn honest(random: &mut Random, inputs: &Inputs) -> Self {
        let guesses = random.sides(inputs.parameters.ballots());
        let dice = [random.dice(), random.dice()];
        Poster { secrets: Secrets::new(inputs), guesses, dice }
    }

    pub fn parameters(&self) -> Parameters {
        self.secrets.parameters
    }

    fn total(&self, openings: &[Opening]) -> u32 {
        let numbers: Vec<u32> = openings.iter().map(|opening| opening.number).collect();
        sum(self.parameters().modulus, &numbers)
    }

    /// The votes committed in the ballots.
    pub fn committed(&self) -> Vec<u32> {
        self.secrets.ballots.iter().map(|six| self.total(six)).collect()
    }

    /// A list's values, rising.
    pub fn values(&self, list: usize) -> Vec<u32> {
        let entries = self.secrets.lists[list].iter();
        sorted(&entries.map(|six| self.total(six)).collect::<Vec<u32>>())
    }

    /// Gives the entry of a ballot in a list this value. What differs is hidden in one of the three
    /// halves of the side that he does not expect.
    pub fn falsify(&mut self, random: &mut Random, list: usize, ballot: usize, value: u32) {
        let modulus = self.parameters().modulus;
        let position = self.secrets.places[list][ballot];
        let slot = 2 * random.index(3) + 1 - usize::from(self.guesses[ballot]);
        let by = difference(modulus, value, self.total(&self.secrets.lists[list][position]));
        let number = &mut self.secrets.lists[list][position][slot].number;
        *number = sum(modulus, &[*number, by]);
    }

    /// The t with which ballot and place agree on this side.
    pub fn fitting_t(&self, list: usize, ballot: usize, position: usize, side: u8) -> u32 {
        let modulus = self.parameters().modulus;
        let ballot = self.total(&of_side(&self.secrets.ballots[ballot], side));
        let entry = self.total(&of_side(&self.secrets.lists[list][position], side));
        match side {
            0 => difference(modulus, ballot, entry),
            _ => difference(modulus, entry, ballot),
        }
    }

    /// True places, each t fitting on the side given for its ballot, and the votes of the first
    /// list that is opened.
    pub fn plan(&self, mask: u32, sides: &[u8]) -> Plan {
        let places = self.secrets.places.clone();
        self.plan_with_places(mask, sides, places)
    }

    pub fn plan_with_places(&self, mask: u32, sides: &[u8], places: Vec<Vec<usize>>) -> Plan {
        let t = |list: usize, j: usize| self.fitting_t(list, j, places[list][j], sides[j]);
        let of_list = |list| (0..sides.len()).map(|j| t(list, j)).collect();
        let shifts = (0..places.len()).map(of_list).collect();
        let opened = lists_of(self.parameters().m, mask, false)[0];
        Plan { shifts, places, votes: self.values(opened) }
    }

    /// What he answers to a throw if he says this, behind the bytes before command 04.
    pub fn record(&self, posted: &[u8], throw: &Throw, plan: Plan) -> Vec<u8> {
        let layout = Layout::new(&self.parameters());
        let Plan { places, shifts, votes } = plan;
        let told = Secrets { places, votes, ..self.secrets.clone() };
        let mut record = posted.to_vec();
        record.extend(told.part_two(&self.dice[0], throw.mask));
        for (rank, list) in lists_of(self.parameters().m, throw.mask, true).into_iter().enumerate()
        {
            for (j, t) in shifts[list].iter().enumerate() {
                record[layout.link(rank, j) + 6..][..4].copy_from_slice(&t.to_be_bytes());
            }
        }
        record.extend(told.part_three(&self.dice[1], throw.mask, &throw.sides));
        record
    }

    /// What he answers by a plan for each throw, or does not where there is none.
    pub fn answering<'a>(
        &'a self,
        plan: impl Fn(&Throw) -> Option<Plan> + 'a,
    ) -> impl Fn(&Throw) -> Option<Vec<u8>> + 'a {
        let posted = self.secrets.part_one();
        move |throw| Some(self.record(&posted, throw, plan(throw)?))
    }

    /// The same with the plan of his guesses.
    pub fn guessing(&self) -> impl Fn(&Throw) -> Option<Vec<u8>> + '_ {
        self.answering(|throw| Some(self.plan(throw.mask, &self.guesses)))
    }
}

/// Votes of the lower half of the numbers below M, of at most two values, so that they repeat.
pub fn low_votes(random: &mut Random, parameters: &Parameters) -> Vec<u32> {
    let candidates = [0; 2].map(|_: u32| random.number(parameters.modulus / 2));
    (0..parameters.n).map(|_| random.pick(&candidates)).collect()
}

/// A vote of the upper half: none of the lower ones.
pub fn high_vote(random: &mut Random, modulus: u32) -> u32 {
    modulus / 2 + random.number(modulus - modulus / 2)
}

/// Somebody who tries this and that: some votes of some lists are false, and under a mask some
/// links, and some throws get no answer.
pub struct Strategy {
    pub poster: Poster,
    plans: BTreeMap<u32, Plan>,
    withheld: BTreeSet<Throw>,
}

impl Strategy {
    /// Half of them play their guesses under every mask.
    pub fn any(random: &mut Random, parameters: Parameters) -> Self {
        let votes = low_votes(random, &parameters);
        let inputs = inputs_of(random, parameters, &votes);
        let mut poster = Poster::honest(random, &inputs);
        let wrong = wrong_votes(random, &votes, parameters.modulus);
        falsify_some(random, &mut poster, &wrong);
        let guessing = random.below(2) == 0;
        let mut plan = |mask| match guessing {
            true => (mask, poster.plan(mask, &poster.guesses)),
            false => (mask, any_plan(random, &poster, mask)),
        };
        let plans = masks(parameters.m).into_iter().map(&mut plan).collect();
        let withheld = withheld(random, throws(parameters.m, parameters.ballots()));
        Strategy { poster, plans, withheld }
    }

    pub fn answers(&self) -> impl Fn(&Throw) -> Option<Vec<u8>> + '_ {
        let answered = |throw: &Throw| !self.withheld.contains(throw);
        self.poster.answering(move |throw| answered(throw).then(|| self.plans[&throw.mask].clone()))
    }
}

/// Some of the votes changed, to any.
fn wrong_votes(random: &mut Random, votes: &[u32], modulus: u32) -> Vec<u32> {
    let often = 1 + random.below(4);
    let changed = votes.iter().map(|&vote| match random.below(4) < often {
        true => random.number(modulus),
        false => vote,
    });
    changed.collect()
}

/// Puts these votes into all lists, into those that one mask opens, or here and there.
fn falsify_some(random: &mut Random, poster: &mut Poster, votes: &[u32]) {
    let (style, mask) = (random.below(3), random.mask(poster.parameters().m));
    for list in 0..poster.parameters().lists() {
        let often = match style {
            0 => 4,
            1 => 4 * u64::from(mask >> list & 1 == 0),
            _ => random.below(5),
        };
        for (j, &vote) in votes.iter().enumerate() {
            if random.below(4) < often {
                poster.falsify(random, list, j, vote);
            }
        }
    }
}

/// His guesses or others, true places or others, now and then any t, and the votes of the first
/// opened list or the committed ones.
fn any_plan(random: &mut Random, poster: &Poster, mask: u32) -> Plan {
    let Parameters { modulus, n, .. } = poster.parameters();
    let sides = match random.below(3) {
        0 => random.sides(n as usize),
        _ => poster.guesses.clone(),
    };
    let mut places = poster.secrets.places.clone();
    if random.below(4) == 0 {
        let moved = random.permutation(n as usize).into_iter().map(usize::from).collect();
        places[random.index(poster.parameters().lists())] = moved;
    }
    let mut plan = poster.plan_with_places(mask, &sides, places);
    for t in plan.shifts.iter_mut().flatten() {
        if random.below(16) == 0 {
            *t = random.number(modulus);
        }
    }
    if random.below(8) == 0 {
        plan.votes = sorted(&poster.committed());
    }
    plan
}

/// Throws without an answer: those that show one side of some ballots, and some of the rest.
fn withheld(random: &mut Random, throws: Vec<Throw>) -> BTreeSet<Throw> {
    let often = random.pick(&[0, 0, 1, 4]);
    let hides = |_| random.pick(&[None, None, None, Some(0), Some(1)]);
    let hidden: Vec<Option<u8>> = (0..throws[0].sides.len()).map(hides).collect();
    let shows = |throw: &Throw| throw.sides.iter().zip(&hidden).any(|(&side, &h)| h == Some(side));
    throws.into_iter().filter(|throw| shows(throw) || random.below(8) < often).collect()
}
