//! The numbers of the claim: choices of lists, throws, the bound and its shares, and distances.

use std::collections::BTreeSet;

use super::*;

const CHOICES: [u64; 12] =
    [2, 6, 20, 70, 252, 924, 3432, 12_870, 48_620, 184_756, 705_432, 2_704_156];

#[test]
fn choices_of_lists() {
    for (m, due) in (1..).zip(CHOICES) {
        assert_eq!(choices(m), due);
        assert_eq!(masks(m).len() as u64, due);
    }
}

#[test]
fn binomial_coefficients() {
    assert!((0..=6).map(|k| binomial(5, k)).eq([1, 5, 10, 10, 5, 1, 0]));
    assert_eq!((binomial(0, 0), binomial(0, 1)), (1, 0));
}

#[test]
fn all_throws_once() {
    for (n, m) in (1..=5).flat_map(|n| (1..=3).map(move |m| (n, m))) {
        let throws = throws(m, n);
        assert_eq!(throws.len() as u64, CHOICES[m as usize - 1] << n);
        assert!(throws
            .iter()
            .all(|throw| throw.mask.count_ones() == m && throw.mask >> (2 * m) == 0));
        assert!(throws.iter().all(|throw| throw.sides.len() == n));
        assert!(throws.iter().flat_map(|throw| &throw.sides).all(|side| *side <= 1));
        assert_eq!(BTreeSet::from_iter(&throws).len(), throws.len());
    }
}

#[test]
fn bounds_by_hand() {
    let rows: [(u32, usize, &[u64]); 7] = [
        (1, 1, &[4, 2]),
        (1, 4, &[32, 16, 16, 16, 16]),
        (2, 1, &[12, 6]),
        (2, 3, &[48, 24, 12, 8]),
        (2, 4, &[96, 48, 24, 16, 16]),
        (3, 4, &[320, 160, 80, 40, 20]),
        (3, 5, &[640, 320, 160, 80, 40, 32]),
    ];
    for (m, n, due) in rows {
        assert_eq!((0..=n).map(|k| bound(m, n, k)).collect::<Vec<u64>>(), due);
    }
}

/// Which share of all throws the bound is, whatever n.
#[test]
fn shares() {
    let rows = [
        (1, [2, 2, 2, 2, 2]),
        (2, [2, 6, 6, 6, 6]),
        (4, [2, 32, 70, 70, 70]),
        (6, [2, 32, 924, 924, 924]),
        (8, [2, 32, 1024, 12_870, 12_870]),
        (12, [2, 32, 1024, 32_768, 2_704_156]),
    ];
    for (m, due) in rows {
        for (k, due) in [1, 5, 10, 15, 22].into_iter().zip(due) {
            assert_eq!(one_in(m, k), due);
            assert!((k..k + 8).all(|n| bound(m, n, k) * due == choices(m) << n));
        }
    }
}

#[test]
fn distances_by_hand() {
    assert_eq!(distance(&[], &[]), 0);
    assert_eq!(distance(&[2, 5, 5], &[5, 2, 5]), 0);
    assert_eq!(distance(&[2, 5, 5], &[2, 2, 5]), 1);
    assert_eq!(distance(&[1, 1, 1, 2], &[2, 2, 2, 1]), 2);
    assert_eq!(distance(&[1, 2, 3], &[2, 3, 4]), 1);
    assert_eq!(distance(&[1, 1, 1], &[1, 2, 3]), 2);
    assert_eq!(distance(&[0, 0, u32::MAX], &[1, 1, 1]), 3);
}

/// The fewest places in which any order of one list differs from the other.
fn fewest(a: &[u32], b: &[u32]) -> usize {
    let Some((first, rest)) = a.split_first() else { return 0 };
    let beside = |place: usize| {
        let others = [&b[..place], &b[place + 1..]].concat();
        usize::from(*first != b[place]) + fewest(rest, &others)
    };
    (0..b.len()).map(beside).min().unwrap()
}

/// Any lists: either way round, beside every order, and by how many more of each there are.
#[test]
fn distances() {
    let random = &mut Random::new(820);
    let mut met = BTreeSet::new();
    for round in 0..2000 {
        let (n, values) = (1 + round % 5, random.pick(&[1, 2, 3, 7]));
        let [a, b] =
            [0; 2].map(|_: u32| (0..n).map(|_| random.number(values)).collect::<Vec<u32>>());
        let found = distance(&a, &b);
        assert_eq!(found, distance(&b, &a));
        assert_eq!(found, fewest(&a, &b));
        let more = |x| count(&a, x).saturating_sub(count(&b, x));
        assert_eq!(found, (0..values).map(more).sum::<usize>());
        met.insert((n, found));
    }
    assert_eq!(met.len(), 2 + 3 + 4 + 5 + 6);
}

/// Another order, one vote changed after the other, and disjoint lists.
#[test]
fn distances_of_changed_lists() {
    let random = &mut Random::new(821);
    for n in 1..40 {
        let votes: Vec<u32> = (0..n).map(|_| random.number(10)).collect();
        let order = random.permutation(n);
        let mut other: Vec<u32> = order.iter().map(|&place| votes[usize::from(place)]).collect();
        assert_eq!(distance(&votes, &other), 0);
        for (changed, place) in (1..).zip(random.permutation(n)) {
            other[usize::from(place)] = 10 + random.number(3);
            assert_eq!(distance(&votes, &other), changed);
        }
    }
}
