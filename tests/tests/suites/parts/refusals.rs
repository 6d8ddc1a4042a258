//! Refusals of the parts in their order, each misuse alone and with every other.

use std::collections::BTreeSet;

use super::answer;
use paddockyear_tests::boards::calls::misuse::{
    check_each, check_pairs, misuse_at_random, Misusable,
};
use paddockyear_tests::boards::calls::parts::{PartCall, KINDS};
use paddockyear_tests::boards::{parameters, FORMS};
use paddockyear_tests::random::Random;
use paddockyear_tests::reference::terms::{Form, Parameters};

#[test]
fn every_misuse() {
    let random = &mut Random::new(31);
    for kind in KINDS {
        for (n, m) in [(1, 1), (3, 2), (4, 12), (257, 1), (1024, 1)] {
            let call = PartCall::honest(random, Parameters::unnumbered(100, n, m), kind);
            assert_eq!(answer(call.clone()), 0);
            check_each(&call, answer);
        }
        for (election, n, m) in [(0, 1, 1), (256, 3, 2), (u32::MAX, 4, 12)] {
            let call = PartCall::honest(random, Parameters::numbered(election, 100, n, m), kind);
            assert_eq!(answer(call.clone()), 0);
            check_each(&call, answer);
        }
    }
}

#[test]
fn every_pair_of_misuses() {
    let random = &mut Random::new(37);
    for kind in KINDS {
        for form in FORMS {
            for (modulus, n, m) in [(2, 1, 1), (100, 3, 2)] {
                let parameters = Parameters { form, modulus, n, m };
                check_pairs(&PartCall::honest(random, parameters, kind), answer);
            }
        }
    }
}

/// Which refusals each kind of call meets.
#[test]
fn refusals_of_each_kind() {
    let random = &mut Random::new(32);
    let due: [&[u8]; 5] = [
        &[3, 5, 10, 18, 19, 21],
        &[3, 5, 6, 7, 10, 18, 19, 21],
        &[3, 5, 6, 10, 18, 19, 21],
        &[3, 5, 6, 7, 10, 11, 18, 19, 21],
        &[3, 5, 6, 7, 10, 18, 19, 21],
    ];
    for (kind, due) in KINDS.into_iter().zip(due) {
        for form in FORMS {
            let parameters = Parameters { form, modulus: 100, n: 3, m: 2 };
            let call = PartCall::honest(random, parameters, kind);
            let mut met: BTreeSet<u8> = call.misuses().iter().map(|misuse| misuse.number).collect();
            assert_eq!(met.insert(21), form != Form::Unnumbered, "with 0C no inputs are copies");
            assert!(met.iter().eq(due), "{kind:?}");
        }
        let mut answers = BTreeSet::new();
        for _ in 0..300 {
            let parameters = parameters(random, 6, 3);
            let mut call = PartCall::honest(random, parameters, kind);
            misuse_at_random(random, &mut call);
            answers.insert(answer(call));
        }
        assert!(answers.remove(&0) && answers.iter().eq(due), "{kind:?}: {answers:?}");
    }
}

/// What is not lent is not looked at.
#[test]
fn what_is_not_lent() {
    let random = &mut Random::new(33);
    for (kind, form) in KINDS.into_iter().flat_map(|kind| FORMS.map(|form| (kind, form))) {
        let parameters = Parameters { form, modulus: 100, n: 3, m: 2 };
        let mut call = PartCall::honest(random, parameters, kind);
        if !call.has_dice() {
            call.dice.clear();
        }
        if !call.has_mask() {
            call.mask = u32::MAX;
        }
        if !call.has_sides() {
            call.sides = vec![2; 7];
        }
        if !call.lends_part_one() {
            call.part_one.clear();
        }
        if !call.lends_part_two() {
            call.part_two.clear();
        }
        assert_eq!(answer(call), 0, "{kind:?}");
    }
}
