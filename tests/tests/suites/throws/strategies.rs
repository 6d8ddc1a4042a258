//! Strategies from fixed seeds, and all of those that the smallest elections have.

use std::collections::{BTreeMap, BTreeSet};
use std::rc::Rc;

use super::*;
use paddockyear_tests::reference::terms::lists_of;

/// Votes that fit: the committed ones, and where they are not shown any, or none of those
/// announced.
fn fitting(random: &mut Random, poster: &Poster, answers: &Answers) -> Vec<Vec<u32>> {
    let modulus = answers.parameters.modulus;
    let announced: BTreeSet<u32> =
        answers.accepted.iter().flat_map(|accepted| accepted.votes.clone()).collect();
    let absent = (0..modulus).find(|vote| !announced.contains(vote)).unwrap_or(0);
    let filled = |fill: &mut dyn FnMut() -> u32| -> Vec<u32> {
        answers.committed().into_iter().map(|vote| vote.unwrap_or_else(&mut *fill)).collect()
    };
    let mut all = vec![poster.committed(), filled(&mut || absent)];
    all.extend((0..4).map(|_| filled(&mut || random.number(modulus))));
    all
}

/// Whatever is tried, the bound is not passed. For nearly all shapes and k some false results pass,
/// also with all votes shown, and at times as many as the bound.
#[test]
fn any_strategy() {
    let random = &mut Random::new(804);
    let (mut passed, mut reached) = (BTreeSet::new(), BTreeSet::new());
    for round in 0..720 {
        let (n, m) = (1 + round % 4, 1 + round / 4 % 3);
        let (modulus, form) = (random.pick(&[2, 2, 3, 4, 100, u32::MAX]), random.pick(&FORMS));
        let parameters = Parameters { form, modulus, n, m };
        let strategy = Strategy::any(random, parameters);
        let answers = family(parameters, strategy.answers());
        let hidden = answers.committed().contains(&None);
        for c in fitting(random, &strategy.poster, &answers) {
            let counts = differing(&answers, &c);
            let some = (1..=n as usize).filter(|&k| counts[k] > 0);
            passed.extend(some.clone().map(|k| (m, n, k, hidden)));
            let most = some.filter(|&k| counts[k] == bound(m, n as usize, k));
            reached.extend(most.map(|k| (m, n, k)));
        }
    }
    // Of 30 shapes with a k, and twice as many with votes hidden or not.
    assert!(passed.len() >= 50 && reached.len() >= 20, "{passed:?}, {reached:?}");
}

/// All lists of this length with numbers below the base.
fn tuples(base: usize, length: usize) -> Vec<Vec<usize>> {
    let longer = |tuples: Vec<Vec<usize>>, _| {
        let with = |tuple: Vec<usize>| (0..base).map(move |last| [&tuple[..], &[last]].concat());
        tuples.into_iter().flat_map(with).collect()
    };
    (0..length).fold(vec![Vec::new()], longer)
}

fn all_votes(parameters: &Parameters, length: usize) -> Vec<Vec<u32>> {
    let votes = |tuple: Vec<usize>| tuple.into_iter().map(|vote| vote as u32).collect();
    tuples(parameters.modulus as usize, length).into_iter().map(votes).collect()
}

/// Somebody with these votes in his ballots, and these values in his lists.
fn poster_of(random: &mut Random, parameters: Parameters, votes: &[u32], lists: &[u32]) -> Poster {
    let inputs = inputs_of(random, parameters, votes);
    let mut poster = Poster::honest(random, &inputs);
    for (list, values) in lists.chunks(votes.len()).enumerate() {
        for (j, &value) in values.iter().enumerate() {
            poster.falsify(random, list, j, value);
        }
    }
    poster
}

/// All links of a mask, with the only votes that can stand beside the lists it opens.
fn plans(poster: &Poster, mask: u32) -> Vec<Plan> {
    let Parameters { n, m, .. } = poster.parameters();
    let n = n as usize;
    let differ = |places: &Vec<usize>| (1..n).all(|j| !places[..j].contains(&places[j]));
    let places: Vec<Vec<usize>> = tuples(n, n).into_iter().filter(differ).collect();
    let shifts = all_votes(&poster.parameters(), n);
    let plan = |chosen: Vec<usize>| {
        let mut plan = poster.plan(mask, &poster.guesses);
        for (list, link) in lists_of(m, mask, true).into_iter().zip(chosen) {
            plan.places[list] = places[link % places.len()].clone();
            plan.shifts[list] = shifts[link / places.len()].clone();
        }
        plan
    };
    tuples(places.len() * shifts.len(), m as usize).into_iter().map(plan).collect()
}

/// What all links of a mask come to: sets of accepted answers that differ in throws or votes.
fn outcomes(poster: &Poster, mask: u32) -> Vec<Vec<Rc<Accepted>>> {
    let outcome = |plan: Plan| {
        let planned = |throw: &Throw| (throw.mask == mask).then(|| plan.clone());
        let answers = family(poster.parameters(), poster.answering(planned));
        let key = |accepted: &Rc<Accepted>| (accepted.throw.clone(), accepted.votes.clone());
        (answers.accepted.iter().map(key).collect::<Vec<_>>(), answers.accepted)
    };
    let outcomes: BTreeMap<_, _> = plans(poster, mask).into_iter().map(outcome).collect();
    outcomes.into_values().collect()
}

/// Every family of somebody who committed to this: an outcome for each mask.
fn families(poster: &Poster) -> Vec<Answers> {
    let parameters = poster.parameters();
    let joined = |families: Vec<Vec<Rc<Accepted>>>, mask| {
        let outcomes = outcomes(poster, mask);
        let with =
            |family: &Vec<_>| outcomes.iter().map(|more| [&family[..], more].concat()).collect();
        families.iter().flat_map(|family| -> Vec<_> { with(family) }).collect()
    };
    let families = masks(parameters.m).into_iter().fold(vec![Vec::new()], joined);
    families.into_iter().map(|accepted| Answers { parameters, accepted }).collect()
}

/// The same answers but for those that show a side of a ballot that is not to be seen: 2 is both.
fn hiding(answers: &Answers, shown: &[usize]) -> Answers {
    let seen = |(side, shown): (&u8, &usize)| *shown == 2 || *shown == usize::from(*side);
    let kept = |accepted: &Rc<Accepted>| accepted.throw.sides.iter().zip(shown).all(seen);
    let accepted = answers.accepted.iter().filter(|accepted| kept(accepted)).cloned().collect();
    Answers { accepted, ..*answers }
}

/// Every family of the smallest elections, up to numbers that t makes up for, with every votes that
/// fit: the most throws are the bound. Votes that do not fit are made to by not showing both sides.
#[test]
fn every_strategy() {
    let random = &mut Random::new(805);
    for (turn, (modulus, n, m)) in
        [(2, 1, 1), (3, 1, 1), (2, 1, 2), (2, 2, 1)].into_iter().enumerate()
    {
        let parameters = Parameters { form: FORMS[turn % 2], modulus, n, m };
        let n = n as usize;
        let mut most = vec![0; n + 1];
        for board in all_votes(&parameters, n + 2 * m as usize * n) {
            let (votes, lists) = board.split_at(n);
            let poster = poster_of(random, parameters, votes, lists);
            for counts in families(&poster).iter().flat_map(every_count) {
                (0..=n).for_each(|k| most[k] = counts[k].max(most[k]));
            }
        }
        assert!(most.into_iter().eq((0..=n).map(|k| bound(m, n, k))), "{parameters:?}");
    }
}

/// The counts of a family and of what is left of it if some sides are not shown, for every votes
/// that fit.
fn every_count(family: &Answers) -> Vec<Vec<u64>> {
    let n = family.parameters.ballots();
    let mut counts = Vec::new();
    for answers in tuples(3, n).iter().map(|shown| hiding(family, shown)) {
        let mut votes = all_votes(&family.parameters, n);
        votes.retain(|votes| answers.fits(votes));
        counts.extend(votes.iter().map(|votes| differing(&answers, votes)));
    }
    counts
}
