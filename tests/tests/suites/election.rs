//! What the election answers and writes.

use std::collections::BTreeSet;

use crate::subject::{announced_votes, election, judge, part_one, part_three, part_two};
use paddockyear_tests::boards::calls::election::ElectionCall;
use paddockyear_tests::boards::calls::misuse::{
    check_each, check_pairs, misuse_at_random, Misusable, LIMITS_OF_N,
};
use paddockyear_tests::boards::copies::*;
use paddockyear_tests::boards::*;
use paddockyear_tests::random::Random;
use paddockyear_tests::reference::judge::Judging;
use paddockyear_tests::reference::terms::{sorted, Form, Opening, Parameters};
use paddockyear_tests::reference::writer::{mask_of, Inputs, MaskSource, SidesSource};

const SHAPES: [Parameters; 2] =
    [Parameters::unnumbered(100, 3, 2), Parameters::numbered(0x0102_0C01, 100, 3, 2)];

/// The shape in both forms, each with all draws.
fn ways() -> impl Iterator<Item = (Parameters, Draws)> {
    SHAPES.into_iter().flat_map(|shape| ALL_DRAWS.map(|draws| (shape, draws)))
}

/// Holds the election; it writes its four buffers alone, and where it refuses nothing.
fn answer(mut call: ElectionCall) -> u8 {
    let before = call.clone();
    let answer = call.hold(election);
    let written = if answer.is_ok() { &call.buffers } else { &before.buffers };
    let buffers = written.clone();
    assert!(call == ElectionCall { buffers, ..before });
    answer.map_or_else(|number| number, |()| 0)
}

/// What the three calls write one after the other.
fn three_calls(call: &ElectionCall, draws: Draws) -> [Vec<u8>; 3] {
    let [mut one, mut two, mut three] =
        call.inputs.parameters.part_lengths().map(|length| vec![0; length]);
    part_one(&call.inputs, &mut one).unwrap();
    let drawn = MaskSource::Drawn { part_one: &one };
    let mask = if draws.mask { drawn } else { MaskSource::Given(call.mask) };
    part_two(&call.inputs, &call.first_dice, mask, &mut two).unwrap();
    let drawn = SidesSource::Drawn { part_one: &one, part_two: &two };
    let sides = if draws.sides { drawn } else { SidesSource::Given(&call.sides) };
    part_three(&call.inputs, &call.second_dice, mask_of(&two), sides, &mut three).unwrap();
    [one, two, three]
}

/// The buffers hold the parts and their join, which is accepted and announces the votes.
fn check(mut call: ElectionCall, draws: Draws) {
    assert_eq!(call.hold(election), Ok(()));
    let parts = three_calls(&call, draws);
    assert!(call.buffers[..3] == parts);
    assert!(call.record() == parts.concat());
    assert!(draws.mask || mask_of(&parts[1]) == call.mask);
    let votes = sorted(&call.inputs.votes);
    assert_eq!(judge(call.record(), Judging::Plain), Ok(votes.clone()));
    if draws == BOTH {
        assert_eq!(judge(call.record(), Judging::Drawn), Ok(votes.clone()));
    }
    let mut announced = vec![u32::MAX; votes.len()];
    assert_eq!(announced_votes(call.record(), &mut announced), Ok(()));
    assert_eq!(announced, votes);
}

#[test]
fn four_ways() {
    let random = &mut Random::new(230);
    for draws in ALL_DRAWS {
        for _ in 0..30 {
            let parameters = parameters(random, 16, 12);
            let parameters = Parameters { modulus: modulus(random), ..parameters };
            check(ElectionCall::honest(random, parameters, draws), draws);
        }
    }
}

#[test]
fn of_many_ballots() {
    let random = &mut Random::new(231);
    for (n, m, draws) in [
        (257, 1, NEITHER),
        (1000, 1, BOTH),
        (1024, 12, BOTH),
        (1025, 2, BOTH),
        (4095, 1, NEITHER),
        (4096, 1, BOTH),
    ] {
        let parameters = Parameters::unnumbered(u32::MAX, n, m);
        check(ElectionCall::honest(random, parameters, draws), draws);
    }
}

#[test]
fn of_many_ballots_numbered() {
    let random = &mut Random::new(283);
    for (n, draws) in [(257, NEITHER), (4096, BOTH)] {
        let parameters = Parameters::numbered(n << 16, u32::MAX, n, 1);
        check(ElectionCall::honest(random, parameters, draws), draws);
    }
}

/// Given ones are taken though drawn judging refuses them.
#[test]
fn given_mask_and_sides() {
    let random = &mut Random::new(232);
    for form in FORMS {
        given_mask_and_sides_of(random, Parameters { form, modulus: 100, n: 40, m: 8 });
    }
}

fn given_mask_and_sides_of(random: &mut Random, parameters: Parameters) {
    for (draws, number) in [
        (Draws { mask: false, sides: true }, 8),
        (Draws { mask: true, sides: false }, 12),
        (NEITHER, 8),
    ] {
        let mut call = ElectionCall::honest(random, parameters, draws);
        call.hold(election).unwrap();
        let fault = judge(call.record(), Judging::Drawn).unwrap_err();
        assert_eq!(fault.number, number);
        assert!(judge(call.record(), Judging::Plain).is_ok());
        let layout = Layout::new(&parameters);
        let sides = (0..40).map(|ballot| call.record()[layout.ballot_half(ballot) + 3]);
        assert_eq!(sides.eq(call.sides.iter().copied()), !draws.sides);
    }
}

/// Any switch but 0 is the same.
#[test]
fn switches() {
    let random = &mut Random::new(233);
    for (shape, draws) in ways() {
        let mut call = ElectionCall::honest(random, shape, draws);
        let again = |switch: u32| match switch {
            0 => vec![0],
            _ => vec![1, 2, 256, 1 << 16, 1 << 31, u32::MAX],
        };
        let other = call.clone();
        call.hold(election).unwrap();
        for mask_given in again(call.mask_given) {
            for sides_given in again(call.sides_given) {
                let mut other = ElectionCall { mask_given, sides_given, ..other.clone() };
                assert_eq!(other.hold(election), Ok(()));
                assert!(other.buffers == call.buffers);
            }
        }
    }
}

/// What is lent in the place of a drawn mask or drawn sides is not looked at.
#[test]
fn what_is_drawn_is_not_looked_at() {
    let random = &mut Random::new(234);
    for (shape, draws) in ways() {
        let mut call = ElectionCall::honest(random, shape, draws);
        let other = call.clone();
        call.hold(election).unwrap();
        for mask in [0, 1, 0b0011, u32::MAX] {
            for sides in [vec![], vec![2; 3], vec![255; 4], vec![0; 3], vec![1; 2]] {
                let mut other = other.clone();
                other.mask = if draws.mask { mask } else { other.mask };
                other.sides = if draws.sides { sides } else { other.sides };
                assert_eq!(other.hold(election), Ok(()));
                assert!(other.buffers == call.buffers);
            }
        }
    }
}

#[test]
fn every_misuse() {
    let random = &mut Random::new(235);
    for draws in ALL_DRAWS {
        for (n, m) in [(1, 1), (3, 2), (2, 12), (257, 1)] {
            let call = ElectionCall::honest(random, Parameters::unnumbered(100, n, m), draws);
            check_each(&call, answer);
        }
    }
}

#[test]
fn every_misuse_of_many_ballots() {
    let random = &mut Random::new(280);
    let parameters = Parameters::unnumbered(100, 1025, 1);
    check_each(&ElectionCall::honest(random, parameters, NEITHER), answer);
}

#[test]
fn every_misuse_numbered() {
    let random = &mut Random::new(284);
    for draws in ALL_DRAWS {
        for (election, n, m) in [(0, 1, 1), (0x0C0C_0C0C, 3, 2), (u32::MAX, 2, 12)] {
            let parameters = Parameters::numbered(election, 100, n, m);
            check_each(&ElectionCall::honest(random, parameters, draws), answer);
        }
    }
}

/// One order over the whole input: 3, then 18 for every slice, the joined one too, then rising.
#[test]
fn every_pair_of_misuses() {
    let random = &mut Random::new(236);
    for (shape, draws) in ways() {
        let parameters = Parameters { form: shape.form, modulus: 9, n: 2, m: 1 };
        check_pairs(&ElectionCall::honest(random, parameters, draws), answer);
    }
}

/// The order in rows: what is broken, and what is answered.
#[test]
fn order_over_all_calls() {
    type Break = fn(&mut ElectionCall);
    let limits: Break = |call| call.inputs.parameters.m = 13;
    let key: Break = |call| call.inputs.keys.truncate(1);
    let place: Break = |call| call.inputs.permutations[0] = u16::MAX;
    let number: Break = |call| call.inputs.numbers[0] = u32::MAX;
    let first_dice: Break = |call| call.first_dice.truncate(29);
    let first_die: Break = |call| call.first_dice[29] = b'7';
    let mask: Break = |call| call.mask = 0;
    let second_dice: Break = |call| call.second_dice.truncate(29);
    let second_die: Break = |call| call.second_dice[0] = b'0';
    let side: Break = |call| call.sides[0] = 2;
    let join: Break = |call| call.buffers[3].clear();
    let random = &mut Random::new(237);
    for (breaks, number) in [
        (&[limits, key, first_dice, join][..], 3),
        (&[key, place, first_die], 18),
        (&[join, place, first_die, number], 18),
        (&[second_dice, place, number], 18),
        (&[first_dice, first_die, mask], 18),
        (&[first_die, mask, number, place], 6),
        (&[second_die, mask, number, side], 6),
        (&[mask, number, side, place], 7),
        (&[number, side, place], 10),
        (&[side, place], 11),
        (&[place], 19),
        (&[join], 18),
        (&[], 0),
    ] {
        for shape in SHAPES {
            let mut call = ElectionCall::honest(random, shape, NEITHER);
            breaks.iter().rev().for_each(|change| change(&mut call));
            assert_eq!(answer(call), number);
        }
    }
}

/// What is answered to these M, n and m, every slice as long as they and the form ask for.
fn check_limits(seed: u64, forms: &[Form], cases: &[(u32, u32, u32, u8)]) {
    let random = &mut Random::new(seed);
    for draws in ALL_DRAWS {
        for &(modulus, n, m, number) in cases {
            for &form in forms {
                let inputs = still_inputs(random, Parameters { form, modulus, n, m });
                let call = ElectionCall::of(random, inputs, draws);
                assert_eq!(answer(call), number, "{draws:?}: {form:?} {modulus} {n} {m}");
            }
        }
    }
}

/// The limits' last accepted and first refused values.
#[test]
fn limits() {
    let cases = [
        (2, 1, 1, 0),
        (u32::MAX, 1, 12, 0),
        (2, 1025, 1, 0),
        (1, 1, 1, 3),
        (2, 0, 1, 3),
        (2, 1, 0, 3),
        (2, 1, 13, 3),
    ];
    check_limits(238, &FORMS, &cases);
}

#[test]
fn limits_of_many_ballots() {
    check_limits(281, &[Form::Unnumbered], &[(2, 4096, 1, 0), (2, 4097, 1, 3)]);
}

/// Before 18.
#[test]
fn limits_of_n() {
    let random = &mut Random::new(282);
    for (shape, draws) in ways() {
        for (n, number) in LIMITS_OF_N {
            let mut call = ElectionCall::honest(random, shape, draws);
            call.inputs.parameters.n = n;
            assert_eq!(answer(call), number, "{draws:?}: n = {n}");
        }
    }
}

/// Which refusals each way meets.
#[test]
fn refusals_of_each_way() {
    let random = &mut Random::new(239);
    let due: [&[u8]; 4] = [
        &[3, 5, 6, 7, 10, 11, 18, 19, 21],
        &[3, 5, 6, 10, 11, 18, 19, 21],
        &[3, 5, 6, 7, 10, 18, 19, 21],
        &[3, 5, 6, 10, 18, 19, 21],
    ];
    for (draws, due) in ALL_DRAWS.into_iter().zip(due) {
        for shape in SHAPES {
            let call = ElectionCall::honest(random, shape, draws);
            let mut met: BTreeSet<u8> = call.misuses().iter().map(|misuse| misuse.number).collect();
            let numbered = shape.form != Form::Unnumbered;
            assert_eq!(met.insert(21), numbered, "with 0C no inputs are copies");
            assert!(met.iter().eq(due), "{draws:?}");
        }
        let mut answers = BTreeSet::new();
        for _ in 0..800 {
            let parameters = parameters(random, 5, 3);
            let mut call = ElectionCall::honest(random, parameters, draws);
            misuse_at_random(random, &mut call);
            answers.insert(answer(call));
        }
        assert!(answers.remove(&0) && answers.iter().eq(due), "{draws:?}: {answers:?}");
    }
}

/// Every draw answers `number` with 01, 0 for held and accepted, and 0 with 0C, where places tell
/// equal openings apart.
#[track_caller]
fn check_copies(random: &mut Random, inputs: &Inputs, number: u8) {
    for (shape, draws) in ways() {
        let number = if shape.form == Form::Unnumbered { number } else { 0 };
        let parameters = Parameters { form: shape.form, ..inputs.parameters };
        let call = ElectionCall::of(random, Inputs { parameters, ..inputs.clone() }, draws);
        assert_eq!(answer(call.clone()), number, "{draws:?} {:?}", shape.form);
        if number == 0 {
            check(call, draws);
        }
    }
}

fn any_inputs(random: &mut Random, n: u32) -> Inputs {
    inputs(random, Parameters::unnumbered(100, n, 1))
}

/// Each of the six places of an earlier ballot, with each of a later one; and all six.
#[test]
fn copied_ballots() {
    let random = &mut Random::new(285);
    for (from, slot) in pairs_of_places() {
        let mut inputs = any_inputs(random, 3);
        let (earlier, ballot) = random.pick(&[(0, 1), (0, 2), (1, 2)]);
        let from = Slot { ballot: earlier, slot: from };
        copy_opening(&mut inputs, from, Slot { ballot, slot });
        check_copies(random, &inputs, 21);
    }
    for (earlier, later) in [(0, 1), (0, 4), (2, 3), (3, 4)] {
        let mut inputs = any_inputs(random, 5);
        copy_ballot(&mut inputs, earlier, later);
        check_copies(random, &inputs, 21);
    }
}

/// Behind every other refusal of any of the three calls.
#[test]
fn copied_ballots_come_last() {
    type Break = fn(&mut ElectionCall);
    let random = &mut Random::new(289);
    let breaks: [(u8, Break); 12] = [
        (3, |call| call.inputs.parameters.m = 13),
        (18, |call| call.inputs.keys.truncate(192)),
        (18, |call| call.buffers[3].clear()),
        (18, |call| call.second_dice.truncate(29)),
        (5, |call| call.inputs.ids[1] = call.inputs.ids[0]),
        (6, |call| call.first_dice[29] = b'7'),
        (6, |call| call.second_dice[0] = b'0'),
        (7, |call| call.mask = 0),
        (10, |call| call.inputs.numbers[0] = u32::MAX),
        (11, |call| call.sides[0] = 2),
        (19, |call| *call.inputs.permutations.last_mut().unwrap() = u16::MAX),
        (21, |_| ()),
    ];
    for ((number, change), shape) in breaks.into_iter().flat_map(|one| SHAPES.map(|s| (one, s))) {
        let mut call = ElectionCall::honest(random, shape, NEITHER);
        copy_ballot(&mut call.inputs, 0, 2);
        change(&mut call);
        let stands = number == 21 && shape.form != Form::Unnumbered;
        assert_eq!(answer(call), if stands { 0 } else { number }, "{:?}", shape.form);
    }
}

/// Equal ones inside a ballot, every two and all six, and in lists that mirror the ballots.
#[test]
fn equal_commitments_that_stand() {
    let random = &mut Random::new(286);
    for (ballot, (first, second)) in pairs_inside().enumerate().map(|(k, pair)| (k % 3, pair)) {
        let mut inputs = any_inputs(random, 3);
        let from = Slot { ballot, slot: first };
        copy_opening(&mut inputs, from, Slot { ballot, slot: second });
        check_copies(random, &inputs, 0);
    }
    let mut inputs = any_inputs(random, 3);
    for ballot in 0..3 {
        let opening = inputs.ballot_openings(ballot)[2];
        put_ballot(&mut inputs, ballot, [opening; 6]);
        check_copies(random, &inputs, 0);
    }
    mirror_ballots(&mut inputs);
    check_copies(random, &inputs, 0);
}

/// The number of another ballot with another key, and its key with another number.
#[test]
fn equal_numbers_or_equal_keys() {
    let random = &mut Random::new(287);
    for byte in [0, 15, 31] {
        let mut inputs = any_inputs(random, 2);
        let opening = inputs.ballot_openings(0)[byte % 6];
        let at = Slot { ballot: 1, slot: random.index(6) };
        let mut key = opening.key;
        key[byte] ^= 1;
        put_opening(&mut inputs, at, Opening { key, ..opening });
        check_copies(random, &inputs, 0);
        let number = (opening.number + 1) % 100;
        put_opening(&mut inputs, at, Opening { number, ..opening });
        check_copies(random, &inputs, 0);
        put_opening(&mut inputs, at, opening);
        check_copies(random, &inputs, 21);
    }
}

#[test]
fn copied_ballots_of_many_ballots() {
    let random = &mut Random::new(288);
    for (n, earlier, draws) in [(257, 255, NEITHER), (4096, 0, BOTH)] {
        let mut inputs = inputs(random, Parameters::unnumbered(u32::MAX, n, 1));
        let from = Slot { ballot: earlier, slot: 4 };
        copy_opening(&mut inputs, from, Slot { ballot: n as usize - 1, slot: 1 });
        for (form, number) in FORMS.into_iter().zip([21, 0]) {
            inputs.parameters.form = form;
            assert_eq!(answer(ElectionCall::of(random, inputs.clone(), draws)), number);
        }
    }
}
