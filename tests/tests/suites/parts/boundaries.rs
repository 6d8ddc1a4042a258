//! For each rule of the parts the last accepted and the first refused value, in both forms.

use super::{answer, calls, calls_of_both_forms, check};
use paddockyear_tests::boards::calls::misuse::LIMITS_OF_N;
use paddockyear_tests::boards::calls::parts::{PartCall, KINDS};
use paddockyear_tests::boards::{still_inputs, ELECTIONS};
use paddockyear_tests::random::Random;
use paddockyear_tests::reference::terms::Parameters;

const M: u32 = 100;
const SHAPE: Parameters = Parameters::unnumbered(M, 3, 2);

/// Every slice is as long as the parameters ask for, and nothing else is broken.
#[test]
fn rule_3_limits() {
    let random = &mut Random::new(210);
    for (modulus, n, m, number) in [
        (2, 1, 1, 0),
        (u32::MAX, 1, 12, 0),
        (2, 1025, 1, 0),
        (2, 4096, 1, 0),
        (u32::MAX, 1024, 12, 0),
        (1, 1, 1, 3),
        (0, 1, 1, 3),
        (2, 0, 1, 3),
        (2, 4097, 1, 3),
        (2, 1, 0, 3),
        (2, 1, 13, 3),
        (1, 0, 13, 3),
    ] {
        for kind in KINDS {
            let inputs = still_inputs(random, Parameters::unnumbered(modulus, n, m));
            let call = PartCall::of(random, inputs, kind);
            assert_eq!(answer(call), number, "{kind:?}: {modulus} {n} {m}");
        }
    }
}

/// Every number of an election stands beside them.
#[test]
fn rule_3_numbered_limits() {
    let random = &mut Random::new(213);
    for (modulus, n, m, number) in [
        (2, 1, 1, 0),
        (u32::MAX, 1, 12, 0),
        (1, 1, 1, 3),
        (0, 1, 1, 3),
        (2, 0, 1, 3),
        (2, 4097, 1, 3),
        (2, 1, 0, 3),
        (2, 1, 13, 3),
    ] {
        for (kind, election) in KINDS.into_iter().zip(ELECTIONS.into_iter().cycle()) {
            let parameters = Parameters::numbered(election, modulus, n, m);
            let inputs = still_inputs(random, parameters);
            let call = PartCall::of(random, inputs, kind);
            assert_eq!(answer(call), number, "{kind:?}: {parameters:?}");
        }
    }
}

/// Before 18.
#[test]
fn rule_3_n_alone() {
    for call in calls_of_both_forms(229, SHAPE) {
        for (n, number) in LIMITS_OF_N {
            check(&call, number, |call| call.inputs.parameters.n = n);
        }
    }
}

/// Two slices of wrong lengths that are right together.
#[test]
fn rule_18_sums() {
    for call in calls_of_both_forms(211, SHAPE) {
        check(&call, 18, |call| {
            let id = call.inputs.ids.pop().unwrap();
            call.inputs.votes.push(id % M);
        });
        check(&call, 18, |call| {
            let vote = call.inputs.votes.pop().unwrap();
            call.inputs.numbers.insert(0, vote);
        });
        if call.has_sides() {
            check(&call, 18, |call| {
                call.sides.push(0);
                call.dice.pop();
            });
        }
    }
}

#[test]
fn rule_5_ids() {
    for call in calls_of_both_forms(212, SHAPE) {
        for (ids, number) in [
            ([0, 1, 2], 0),
            ([0, 1, u32::MAX], 0),
            ([u32::MAX - 2, u32::MAX - 1, u32::MAX], 0),
            ([0, 0, 1], 5),
            ([7, 8, 8], 5),
            ([7, 8, 7], 5),
            ([255, 256, 1], 5),
            ([u32::MAX, 0, 1], 5),
            ([1 << 31, (1 << 31) - 1, u32::MAX], 5),
        ] {
            check(&call, number, |call| call.inputs.ids = ids.to_vec());
        }
    }
}

#[test]
fn rule_6_dice() {
    for call in calls_of_both_forms(214, SHAPE).iter().filter(|call| call.has_dice()) {
        for die in 0..30 {
            for (character, number) in
                [(b'1', 0), (b'6', 0), (b'0', 6), (b'7', 6), (0, 6), (1, 6), (6, 6), (255, 6)]
            {
                check(call, number, |call| call.dice[die] = character);
            }
        }
    }
}

/// Every mask of nine bits, and each single high bit.
#[test]
fn rule_7_mask_shape() {
    for call in calls_of_both_forms(215, SHAPE).iter().filter(|call| call.has_mask()) {
        let high = (4..32).map(|bit| 1 | 1 << bit);
        for mask in (0..512).chain(high) {
            let stands = [0b0011, 0b0101, 0b1001, 0b0110, 0b1010, 0b1100].contains(&mask);
            check(call, if stands { 0 } else { 7 }, |call| call.mask = mask);
        }
    }
}

#[test]
fn rule_7_fewest_and_most_lists() {
    for (m, masks) in [
        (1, &[(1, 0), (2, 0), (0, 7), (3, 7), (4, 7), (5, 7), (1 << 31, 7)][..]),
        (
            12,
            &[
                (0x0000_0FFF, 0),
                (0x00FF_F000, 0),
                (0x00AA_AAAA, 0),
                (0x0000_07FF, 7),
                (0x0000_1FFF, 7),
                (0x01FF_E000, 7),
                (0x8000_07FF, 7),
                (0xFFF0_0000, 7),
                (u32::MAX, 7),
            ],
        ),
    ] {
        let calls = calls_of_both_forms(216, Parameters::unnumbered(M, 2, m));
        for call in calls.iter().filter(|call| call.has_mask()) {
            for &(mask, number) in masks {
                check(call, number, |call| call.mask = mask);
            }
        }
    }
}

/// Every vote and every number.
#[test]
fn rule_10_numbers() {
    for call in calls_of_both_forms(217, SHAPE) {
        for (number, refusal) in [(0, 0), (M - 1, 0), (M, 10), (u32::MAX, 10)] {
            for vote in 0..call.inputs.votes.len() {
                check(&call, refusal, |call| call.inputs.votes[vote] = number);
            }
            for place in 0..call.inputs.numbers.len() {
                check(&call, refusal, |call| call.inputs.numbers[place] = number);
            }
        }
    }
}

/// At the largest modulus only the highest number is refused, at the smallest 2.
#[test]
fn rule_10_largest_and_smallest_modulus() {
    for (modulus, highest) in [(u32::MAX, u32::MAX - 1), (2, 1)] {
        for call in calls_of_both_forms(218, Parameters::unnumbered(modulus, 2, 1)) {
            for place in 0..call.inputs.numbers.len() {
                check(&call, 0, |call| call.inputs.numbers[place] = highest);
                check(&call, 10, |call| call.inputs.numbers[place] = highest + 1);
            }
            check(&call, 0, |call| call.inputs.votes = vec![highest; 2]);
            check(&call, 10, |call| call.inputs.votes = vec![0, highest + 1]);
        }
    }
}

#[test]
fn rule_11_sides() {
    for call in calls_of_both_forms(219, SHAPE).iter().filter(|call| call.has_sides()) {
        for ballot in 0..3 {
            for side in 0..=255 {
                check(call, if side <= 1 { 0 } else { 11 }, |call| call.sides[ballot] = side);
            }
        }
    }
}

/// Every place of every permutation.
#[test]
fn rule_19_permutations() {
    for call in calls_of_both_forms(225, SHAPE) {
        for place in 0..call.inputs.permutations.len() {
            let from = call.inputs.permutations[place];
            for other in [0, 1, 2, 3, 4, 256, 1023, 1024, 4095, 4096, u16::MAX] {
                let number = if other == from { 0 } else { 19 };
                check(&call, number, |call| call.inputs.permutations[place] = other);
            }
        }
    }
}

/// Two permutations that are none, though together they have each place twice; and all others are.
#[test]
fn rule_19_together() {
    for call in calls_of_both_forms(226, SHAPE) {
        for first in (0..36).step_by(3) {
            let second = (first + 3) % 36;
            check(&call, 19, |call| {
                call.inputs.permutations[first..][..3].copy_from_slice(&[0, 0, 1]);
                call.inputs.permutations[second..][..3].copy_from_slice(&[1, 2, 2]);
            });
            check(&call, 0, |call| {
                call.inputs.permutations[first..][..3].copy_from_slice(&[0, 2, 1]);
                call.inputs.permutations[second..][..3].copy_from_slice(&[1, 0, 2]);
            });
        }
    }
}

#[test]
fn rule_19_fewest_and_most_places() {
    for call in calls_of_both_forms(227, Parameters::unnumbered(M, 1, 1)) {
        for place in 0..6 {
            check(&call, 19, |call| call.inputs.permutations[place] = 1);
        }
    }
    for call in calls(228, Parameters::unnumbered(M, 4096, 1)) {
        for start in [0, 5 * 4096] {
            for rows in [(0..4096).collect::<Vec<u16>>(), (0..4096).rev().collect()] {
                check(&call, 0, |call| {
                    call.inputs.permutations[start..][..4096].copy_from_slice(&rows);
                });
                check(&call, 19, |call| {
                    call.inputs.permutations[start..][..4096].copy_from_slice(&rows);
                    call.inputs.permutations[start + 4095] = rows[0];
                });
            }
        }
        check(&call, 19, |call| {
            let permutations = &mut call.inputs.permutations;
            let last = permutations.iter_mut().rfind(|place| **place == 4095).unwrap();
            *last = 4096;
        });
    }
}
