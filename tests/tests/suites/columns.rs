//! What a column's three entries answer and write.

use std::collections::BTreeSet;

use crate::subject::{offsets_server, row_server, split_server};
use paddockyear_tests::boards::calls::columns::{ColumnCall, Entry, ENTRIES};
use paddockyear_tests::boards::calls::misuse::{
    check_each, check_pairs, misuse_at_random, LIMITS_OF_N,
};
use paddockyear_tests::boards::{mistaken, parameters, FAR_PLACES, MANY, MODULI};
use paddockyear_tests::random::Random;
use paddockyear_tests::reference::terms::Parameters;

/// Runs the call; a refusal leaves the buffer as it was.
fn answer(mut call: ColumnCall) -> u8 {
    let before = call.out.clone();
    let ColumnCall { entry, modulus, n, first, second, permutation, out } = &mut call;
    let answer = match entry {
        Entry::RowServer => row_server(*modulus, *n, first, second, permutation, out),
        Entry::ThirdRowOffsets => offsets_server(*modulus, *n, first, second, out),
        Entry::Split => split_server(*modulus, *n, first, second, out),
    };
    assert!(answer.is_ok() || *out == before);
    answer.map_or_else(|number| number, |()| 0)
}

#[test]
fn honest_columns() {
    let random = &mut Random::new(60);
    for entry in ENTRIES {
        for n in (1..=40).chain([255, 256, 1023, 1024]).chain(MANY) {
            for modulus in MODULI {
                assert_eq!(answer(ColumnCall::honest(random, entry, modulus, n)), 0);
            }
        }
    }
}

/// Numbers at both ends of their range, so that every sum wraps or just does not.
#[test]
fn numbers_at_the_limits() {
    let random = &mut Random::new(61);
    for entry in ENTRIES {
        for modulus in MODULI {
            let mut call = ColumnCall::honest(random, entry, modulus, 16);
            for place in 0..16 {
                let ends = [0, 1, modulus - 2, modulus - 1];
                (call.first[place], call.second[place]) = (ends[place / 4], ends[place % 4]);
            }
            assert_eq!(answer(call), 0);
        }
    }
}

#[test]
fn every_misuse() {
    let random = &mut Random::new(62);
    for entry in ENTRIES {
        for n in [1, 2, 3, 257, 1024, 4096] {
            check_each(&ColumnCall::honest(random, entry, 100, n), answer);
        }
    }
}

#[test]
fn every_pair_of_misuses() {
    let random = &mut Random::new(63);
    for entry in ENTRIES {
        for (modulus, n) in [(2, 1), (100, 3), (u32::MAX, 40)] {
            check_pairs(&ColumnCall::honest(random, entry, modulus, n), answer);
        }
    }
}

#[test]
fn random_columns() {
    let random = &mut Random::new(64);
    for (entry, due) in
        ENTRIES.into_iter().zip([&[0, 3, 10, 18, 19][..], &[0, 3, 10, 18], &[0, 3, 10, 18]])
    {
        let mut answers = BTreeSet::new();
        for _ in 0..1_000 {
            let mut call = ColumnCall::any(random, entry, 50);
            misuse_at_random(random, &mut call);
            answers.insert(answer(call));
        }
        assert!(answers.iter().eq(due), "{entry:?}: {answers:?}");
    }
}

/// Each row server's own functions give the rows whose sum stays.
fn keeps_the_sum(random: &mut Random, modulus: u32, n: u32) {
    let mut numbers = || (0..n).map(|_| random.number(modulus)).collect::<Vec<u32>>();
    let rows = [numbers(), numbers(), numbers()];
    let (first, second) = (numbers(), numbers());
    let permutation = random.permutation(n as usize);
    let mut third = vec![7; n as usize];
    offsets_server(modulus, n, &first, &second, &mut third).unwrap();
    let mut out = [vec![7; n as usize], vec![8; n as usize], vec![9; n as usize]];
    for (row, offsets) in [first, second, third].iter().enumerate() {
        row_server(modulus, n, &rows[row], offsets, &permutation, &mut out[row]).unwrap();
    }
    let total = |rows: &[Vec<u32>; 3], i: usize| {
        rows.iter().map(|row| u64::from(row[i])).sum::<u64>() % u64::from(modulus)
    };
    for (i, &from) in permutation.iter().enumerate() {
        assert_eq!(total(&out, i), total(&rows, usize::from(from)));
    }
}

#[test]
fn columns_keep_the_sum() {
    let random = &mut Random::new(36);
    for _ in 0..200 {
        let Parameters { modulus, n, .. } = parameters(random, 20, 1);
        keeps_the_sum(random, modulus, n);
    }
    for n in MANY {
        keeps_the_sum(random, u32::MAX, n);
    }
}

/// What stands at far places after each entry.
#[test]
fn far_places() {
    let permutation: Vec<u16> = (0..4096).map(|i| (i + 1025) % 4096).collect();
    let (row, zeros): (Vec<u32>, Vec<u32>) = ((0..4096).collect(), vec![0; 4096]);
    let mut out = vec![7; 4096];
    row_server(u32::MAX, 4096, &row, &zeros, &permutation, &mut out).unwrap();
    let due = [1025, 1026, 1280, 1281, 1282, 2048, 2049, 2050, 1023, 1024];
    assert_eq!(FAR_PLACES.map(|place| out[place]), due);
    offsets_server(5000, 4096, &row, &zeros, &mut out).unwrap();
    let due = [0, 4999, 4745, 4744, 4743, 3977, 3976, 3975, 906, 905];
    assert_eq!(FAR_PLACES.map(|place| out[place]), due);
    split_server(5000, 4096, &zeros, &row, &mut out).unwrap();
    assert_eq!(FAR_PLACES.map(|place| out[place]), due);
}

/// A far place is left out of a permutation for one that it may be taken for.
#[test]
fn permutations_of_far_places() {
    let call = ColumnCall::honest(&mut Random::new(69), Entry::RowServer, u32::MAX, 4096);
    for place in FAR_PLACES.map(|place| place as u16) {
        let at = call.permutation.iter().position(|&from| from == place).unwrap();
        for other in mistaken(place) {
            let mut call = call.clone();
            call.permutation[at] = other;
            assert_eq!(answer(call), 19, "{other} for {place}");
        }
    }
}

/// Before 18.
#[test]
fn limits_of_n() {
    let random = &mut Random::new(78);
    for entry in ENTRIES {
        let call = ColumnCall::honest(random, entry, 9, 3);
        for (n, number) in LIMITS_OF_N {
            assert_eq!(answer(ColumnCall { n, ..call.clone() }), number, "{entry:?}: n = {n}");
        }
    }
}

#[test]
fn row_server_refusals() {
    let run = |modulus, n, row: &[u32], offsets: &[u32], permutation: &[u16], length: usize| {
        let mut out = vec![77; length];
        let answer = row_server(modulus, n, row, offsets, permutation, &mut out);
        assert!(answer.is_ok() || out == vec![77; length]);
        (answer, out)
    };
    let (row, offsets, perm) = ([5, 6, 7], [1, 2, 3], [2, 0, 1]);
    assert_eq!(run(9, 3, &row, &offsets, &perm, 3), (Ok(()), vec![1, 6, 8]));
    assert_eq!(run(1, 3, &row, &offsets, &perm, 2).0, Err(3));
    assert_eq!(run(9, 0, &[], &[], &[], 0).0, Err(3));
    assert_eq!(run(9, 4097, &row, &offsets, &perm, 3).0, Err(3));
    assert_eq!(run(9, 4096, &row, &offsets, &perm, 3).0, Err(18));
    assert_eq!(run(7, 3, &row, &offsets, &perm, 2).0, Err(18));
    assert_eq!(run(7, 3, &row, &offsets, &perm[1..], 3).0, Err(18));
    assert_eq!(run(7, 3, &row[1..], &offsets, &perm, 3).0, Err(18));
    assert_eq!(run(7, 3, &row, &offsets[1..], &perm, 3).0, Err(18));
    assert_eq!(run(7, 3, &row, &offsets, &[0, 0, 1], 3).0, Err(10));
    assert_eq!(run(9, 3, &row, &[1, 9, 3], &[0, 0, 1], 3).0, Err(10));
    assert_eq!(run(9, 3, &row, &offsets, &[0, 0, 1], 3).0, Err(19));
    assert_eq!(run(9, 3, &row, &offsets, &[0, 3, 1], 3).0, Err(19));
}

#[test]
fn split_and_offset_refusals() {
    for server in [offsets_server, split_server] {
        let mut out = [77; 2];
        assert_eq!(server(1, 2, &[0], &[0], &mut out), Err(3));
        assert_eq!(server(9, 0, &[], &[], &mut []), Err(3));
        assert_eq!(server(9, 2, &[9], &[0, 0], &mut out), Err(18));
        assert_eq!(server(9, 2, &[9, 0], &[0], &mut out), Err(18));
        assert_eq!(server(9, 2, &[9, 0], &[0, 0], &mut out[1..]), Err(18));
        assert_eq!(server(9, 2, &[0, 9], &[0, 0], &mut out), Err(10));
        assert_eq!(server(9, 2, &[0, 0], &[9, 0], &mut out), Err(10));
        assert_eq!(out, [77; 2]);
    }
    let mut out = [0; 3];
    offsets_server(9, 3, &[1, 0, 8], &[2, 0, 8], &mut out).unwrap();
    assert_eq!(out, [6, 0, 2]);
    split_server(9, 3, &[1, 0, 8], &[2, 0, 8], &mut out).unwrap();
    assert_eq!(out, [8, 0, 0]);
}
