//! How many of all throws a false result passes: never more than the bound, and as many as it where
//! somebody guesses the lists or the sides. What is not a family of answers may pass more.

mod cheats;
mod conditions;
mod numbers;
mod strategies;

use crate::subject::{announced_votes, judge, part_one, part_three, part_two};
use paddockyear_tests::boards::{FORMS, MODULI};
use paddockyear_tests::random::Random;
use paddockyear_tests::reference::judge::Judging;
use paddockyear_tests::reference::terms::Parameters;
use paddockyear_tests::reference::writer::{Inputs, MaskSource, SidesSource};
use paddockyear_tests::throws::posters::*;
use paddockyear_tests::throws::*;

/// The votes that an accepted record announces.
fn judged(record: &[u8]) -> Option<Vec<u32>> {
    let announced = judge(record, Judging::Plain).ok()?;
    let mut votes = vec![0; announced.len()];
    announced_votes(record, &mut votes).unwrap();
    assert_eq!(votes, announced);
    Some(votes)
}

/// Up to so many ballots and lists, in both forms, the moduli in turn.
fn elections(n: u32, m: u32) -> Vec<Parameters> {
    let shapes = (1..=n).flat_map(|n| (1..=m).map(move |m| (n, m)));
    let with_forms = shapes.flat_map(|shape| FORMS.map(|form| (shape, form)));
    let moduli = MODULI.iter().cycle();
    with_forms
        .zip(moduli)
        .map(|(((n, m), form), &modulus)| Parameters { form, modulus, n, m })
        .collect()
}

/// The accepted answers of what keeps the conditions of a family.
#[track_caller]
fn family(parameters: Parameters, answer: impl Fn(&Throw) -> Option<Vec<u8>>) -> Answers {
    let answers = Answers::of(parameters, answer, judged);
    assert_eq!(answers.broken(), None);
    assert!(!answers.opened_twice());
    answers
}

/// The throws of a family that differ from c in at least k places, for each k from 0 to n: if c
/// fits, never more than the bound.
#[track_caller]
fn differing(answers: &Answers, c: &[u32]) -> Vec<u64> {
    let Parameters { n, m, .. } = answers.parameters;
    assert!(answers.fits(c));
    let counts: Vec<u64> = (0..=n as usize).map(|k| answers.differing(k, c)).collect();
    for (k, &count) in counts.iter().enumerate() {
        assert!(count <= bound(m, n as usize, k), "{count} of {:?}, k = {k}", answers.parameters);
    }
    counts
}

/// The counts due: so many throws are accepted, and of these so many differ in up to so many
/// places, given as pairs of places and throws with the places rising.
fn steps(n: usize, accepted: u64, steps: &[(usize, u64)]) -> Vec<u64> {
    let at = |k: usize| steps.iter().find(|step| k <= step.0).map_or(0, |step| step.1);
    (0..=n).map(|k| if k == 0 { accepted } else { at(k) }).collect()
}

/// What the servers' parts answer to a throw.
fn served(inputs: &Inputs, dice: &[Vec<u8>; 2], throw: &Throw) -> Vec<u8> {
    let [mut one, mut two, mut three] =
        inputs.parameters.part_lengths().map(|length| vec![0; length]);
    part_one(inputs, &mut one).unwrap();
    part_two(inputs, &dice[0], MaskSource::Given(throw.mask), &mut two).unwrap();
    let sides = SidesSource::Given(&throw.sides);
    part_three(inputs, &dice[1], throw.mask, sides, &mut three).unwrap();
    [one, two, three].concat()
}

/// Honest servers answer every throw, and announce the votes cast, which alone fit. Any side that
/// is guessed fits true lists.
#[test]
fn honest_servers() {
    let random = &mut Random::new(800);
    for parameters in elections(4, 3) {
        let (n, m) = (parameters.ballots(), parameters.m);
        let votes = low_votes(random, &parameters);
        let inputs = inputs_of(random, parameters, &votes);
        let poster = Poster::honest(random, &inputs);
        let told = poster.guessing();
        let answer = |throw: &Throw| {
            let record = served(&inputs, &poster.dice, throw);
            assert_eq!(told(throw), Some(record.clone()));
            Some(record)
        };
        let answers = family(parameters, answer);
        assert_eq!(answers.accepted.len() as u64, choices(m) << n);
        assert_eq!(answers.committed(), votes.iter().copied().map(Some).collect::<Vec<_>>());
        assert_eq!(differing(&answers, &votes), steps(n, choices(m) << n, &[]));
    }
}

/// Somebody whose ballots have low votes, and his lists as well so far.
fn cheat(random: &mut Random, parameters: Parameters) -> Poster {
    let votes = low_votes(random, &parameters);
    let inputs = inputs_of(random, parameters, &votes);
    Poster::honest(random, &inputs)
}

fn any_order(random: &mut Random, n: usize) -> Vec<usize> {
    random.permutation(n).into_iter().map(usize::from).collect()
}

/// High votes for these ballots in all lists that the mask has not.
fn falsify(random: &mut Random, poster: &mut Poster, ballots: &[usize], mask: u32) {
    let Parameters { modulus, .. } = poster.parameters();
    for &ballot in ballots {
        let vote = high_vote(random, modulus);
        for list in 0..poster.parameters().lists() {
            if mask >> list & 1 == 0 {
                poster.falsify(random, list, ballot, vote);
            }
        }
    }
}
