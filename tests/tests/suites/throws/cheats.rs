//! Cheats who guess the lists, the sides or both: their counts are exact, and some are the bound.

use std::collections::BTreeSet;

use super::*;

/// All lists that one mask opens are false in w places, and the others true: under it every throw
/// passes. Where the true lists are opened those pass that show the false ones on the side guessed,
/// and their result is true.
#[test]
fn guessed_lists() {
    let random = &mut Random::new(801);
    let mut reached = BTreeSet::new();
    let larger = FORMS.map(|form| Parameters { form, modulus: 3, n: 5, m: 3 });
    for parameters in elections(4, 3).into_iter().chain(larger) {
        let (n, m) = (parameters.ballots(), parameters.m);
        for wrong in 1..=n {
            let mut poster = cheat(random, parameters);
            let ballots = any_order(random, n);
            let mask = random.mask(m);
            falsify(random, &mut poster, &ballots[..wrong], mask);
            let answers = family(parameters, poster.guessing());
            let counts = differing(&answers, &poster.committed());
            assert_eq!(counts, steps(n, (1 << n) + (1 << (n - wrong)), &[(wrong, 1 << n)]));
            let most = (1..=wrong).filter(|&k| counts[k] == bound(m, n, k));
            assert!(most.clone().eq((1..=wrong).filter(|&k| choices(m) <= 1 << k)));
            reached.extend(most.map(|k| (m, k)));
        }
    }
    assert_eq!(reached, BTreeSet::from([(1, 1), (1, 2), (1, 3), (1, 4), (2, 3), (2, 4), (3, 5)]));
}

/// All lists are false in k places, and fit on the sides guessed: the throws that show these pass.
#[test]
fn guessed_sides() {
    let random = &mut Random::new(802);
    let mut reached = BTreeSet::new();
    for parameters in elections(4, 3) {
        let (n, m) = (parameters.ballots(), parameters.m);
        for wrong in 1..=n {
            let ballots = any_order(random, n)[..wrong].to_vec();
            if guess_sides(random, parameters, &ballots) == bound(m, n, wrong) {
                assert!(choices(m) >= 1 << wrong);
                reached.insert((m, wrong));
            }
        }
    }
    let due = [(1, 1), (2, 1), (2, 2), (3, 1), (3, 2), (3, 3), (3, 4)];
    assert_eq!(reached, BTreeSet::from(due));
}

/// How many throws pass that show these ballots on the sides guessed. Their other sides are never
/// seen, so that any vote fits there, and nowhere else.
fn guess_sides(random: &mut Random, parameters: Parameters, ballots: &[usize]) -> u64 {
    let (n, m) = (parameters.ballots(), parameters.m);
    let mut poster = cheat(random, parameters);
    falsify(random, &mut poster, ballots, 0);
    let answers = family(parameters, poster.guessing());
    let passed = choices(m) << (n - ballots.len());
    let counts = differing(&answers, &poster.committed());
    assert_eq!(counts, steps(n, passed, &[(ballots.len(), passed)]));
    let guessed = |throw: &Throw| ballots.iter().all(|&j| throw.sides[j] == poster.guesses[j]);
    let due = throws(m, n).into_iter().filter(guessed);
    assert!(answers.accepted.iter().map(|accepted| accepted.throw.clone()).eq(due));
    for j in 0..n {
        let mut other = poster.committed();
        other[j] = high_vote(random, parameters.modulus);
        assert_eq!(answers.fits(&other), ballots.contains(&j));
    }
    passed
}

/// Some places are false in all lists, some more in those that one mask opens.
#[test]
fn guessed_sides_and_lists() {
    let random = &mut Random::new(803);
    for parameters in elections(4, 3).into_iter().filter(|parameters| parameters.n > 1) {
        let (n, m) = (parameters.ballots(), parameters.m);
        for (everywhere, more) in (1..n).flat_map(|a| (1..=n - a).map(move |b| (a, b))) {
            let mut poster = cheat(random, parameters);
            let ballots = any_order(random, n);
            let (mask, (first, rest)) = (random.mask(m), ballots.split_at(everywhere));
            falsify(random, &mut poster, first, 0);
            falsify(random, &mut poster, &rest[..more], mask);
            let answers = family(parameters, poster.guessing());
            let (one, other) = (1 << (n - everywhere), 1 << (n - everywhere - more));
            let due = [(everywhere, one + other), (everywhere + more, one)];
            let counts = differing(&answers, &poster.committed());
            assert_eq!(counts, steps(n, one + other, &due));
        }
    }
}
