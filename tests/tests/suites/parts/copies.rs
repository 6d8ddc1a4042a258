//! Rule 21 of the parts: inputs that would give a ballot a commitment of an earlier one. What is
//! compared are the ballots' commitments, so that number and key both count, and with 0C the place
//! as well: there equal openings stand.

use std::collections::BTreeSet;

use super::{answer, run};
use crate::subject::mask_entry;
use paddockyear_tests::boards::calls::parts::{PartCall, KINDS};
use paddockyear_tests::boards::copies::*;
use paddockyear_tests::boards::*;
use paddockyear_tests::random::Random;
use paddockyear_tests::reference::drawing::{drawn_mask, seed};
use paddockyear_tests::reference::judge::{judge, Judging};
use paddockyear_tests::reference::terms::{sorted, Form, Opening, Parameters};
use paddockyear_tests::reference::writer::{mask_of, Inputs, Secrets};

const M: u32 = 100;

fn any_inputs(random: &mut Random, n: u32) -> Inputs {
    inputs(random, Parameters::unnumbered(M, n, 1))
}

/// What is answered in this form where it is `number` with 01.
fn due(form: Form, number: u8) -> u8 {
    match form {
        Form::Unnumbered => number,
        Form::Numbered(_) => 0,
    }
}

fn in_form(inputs: &Inputs, form: Form) -> Inputs {
    Inputs { parameters: Parameters { form, ..inputs.parameters }, ..inputs.clone() }
}

/// Every kind of call answers `number` with 01, 0 for done, and 0 with 0C.
#[track_caller]
fn check(random: &mut Random, inputs: &Inputs, number: u8) {
    for (kind, form) in KINDS.into_iter().flat_map(|kind| FORMS.map(|form| (kind, form))) {
        let call = PartCall::of(random, in_form(inputs, form), kind);
        assert_eq!(answer(call), due(form, number), "{kind:?} {form:?}");
    }
}

/// Every kind of call is done in both forms, and the joined parts are accepted.
#[track_caller]
fn check_written(random: &mut Random, inputs: &Inputs) {
    check(random, inputs, 0);
    FORMS.iter().for_each(|&form| check_accepted(random, &in_form(inputs, form)));
}

#[track_caller]
fn check_accepted(random: &mut Random, inputs: &Inputs) {
    let mut one = PartCall::of(random, inputs.clone(), (1, BOTH));
    run(&mut one).unwrap();
    let mut two = PartCall::of(random, inputs.clone(), (2, BOTH));
    two.part_one = one.out.clone();
    run(&mut two).unwrap();
    let mut three = PartCall::of(random, inputs.clone(), (3, BOTH));
    (three.part_one, three.part_two) = (one.out.clone(), two.out.clone());
    three.mask = mask_of(&two.out);
    run(&mut three).unwrap();
    let record = [one.out, two.out, three.out].concat();
    assert_eq!(judge(&record, Judging::Drawn), Ok(sorted(&inputs.votes)));
}

/// Document 01's last sample: vote, numbers and keys of one ballot are another's.
#[test]
fn ballots_cast_again() {
    let random = &mut Random::new(640);
    for later in 1..5 {
        for earlier in 0..later {
            let mut inputs = any_inputs(random, 5);
            check(random, &inputs, 0);
            inputs.votes[later] = inputs.votes[earlier];
            inputs.numbers.copy_within(5 * earlier..5 * earlier + 5, 5 * later);
            inputs.keys.copy_within(192 * earlier..192 * earlier + 192, 192 * later);
            check(random, &inputs, 21);
        }
    }
}

/// Each of the six places of an earlier ballot, with each of a later one.
#[test]
fn every_pair_of_places() {
    let random = &mut Random::new(641);
    for (from, to) in pairs_of_places() {
        for (earlier, later) in [(0, 1), (0, 2), (1, 2)] {
            let mut inputs = any_inputs(random, 3);
            let from = Slot { ballot: earlier, slot: from };
            copy_opening(&mut inputs, from, Slot { ballot: later, slot: to });
            check(random, &inputs, 21);
        }
    }
}

/// By the given numbers alone: a first half, or a share with its first half, makes the second half
/// of another ballot's row, or z does.
#[test]
fn numbers_worked_out() {
    let random = &mut Random::new(642);
    // w, x, y, u1, u2, u3 of document 01's sample, with z 14 and v 43, 61, 84.
    let sample = [24, 50, 60, 7, 99, 30];
    for (place, number, other) in [
        (0, 7, [11, 20, 30, 7, 1, 2]),
        (1, 43, [11, 20, 30, 43, 1, 2]),
        (2, 99, [11, 20, 30, 21, 1, 2]),
        (3, 61, [11, 20, 30, 0, 61, 2]),
        (4, 30, [11, 20, 31, 0, 1, 2]),
        (5, 84, [11, 20, 30, 0, 1, 77]),
    ] {
        let mut inputs = any_inputs(random, 2);
        for (ballot, [w, x, y, u1, u2, u3]) in [sample, other].into_iter().enumerate() {
            inputs.votes[ballot] = w;
            inputs.numbers[5 * ballot..][..5].copy_from_slice(&[x, y, u1, u2, u3]);
        }
        let six = inputs.ballot_openings(1).map(|opening| opening.number);
        let to = six.iter().position(|&own| own == number).unwrap();
        assert_eq!(inputs.ballot_openings(0)[place].number, number);
        check(random, &inputs, 0);
        inputs.keys.copy_within(32 * place..32 * place + 32, 192 + 32 * to);
        check(random, &inputs, 21);
    }
}

/// Every two places of one ballot; all six of each.
#[test]
fn equal_inside_a_ballot() {
    let random = &mut Random::new(643);
    for (first, second) in pairs_inside() {
        for ballot in 0..3 {
            let mut inputs = any_inputs(random, 3);
            let from = Slot { ballot, slot: first };
            copy_opening(&mut inputs, from, Slot { ballot, slot: second });
            check_written(random, &inputs);
        }
    }
    for n in [1, 2, 3] {
        let mut inputs = any_inputs(random, n);
        for ballot in 0..n as usize {
            let opening = inputs.ballot_openings(ballot)[5];
            put_ballot(&mut inputs, ballot, [opening; 6]);
            check_written(random, &inputs);
        }
        let last = n as usize - 1;
        if last > 0 {
            copy_opening(&mut inputs, Slot { ballot: 0, slot: 0 }, Slot { ballot: last, slot: 1 });
            check(random, &inputs, 21);
        }
    }
}

/// The number of another ballot with another key: one bit of the key differs, whichever byte it is
/// in, or all do.
#[test]
fn equal_numbers() {
    let random = &mut Random::new(644);
    for byte in 0..32 {
        for bits in [0x01, 0x80] {
            let mut inputs = any_inputs(random, 3);
            let (from, slot) = (random.index(6), random.index(6));
            let mut opening = inputs.ballot_openings(0)[from];
            opening.key[byte] ^= bits;
            put_opening(&mut inputs, Slot { ballot: 2, slot }, opening);
            check(random, &inputs, 0);
            opening.key[byte] ^= bits;
            put_opening(&mut inputs, Slot { ballot: 2, slot }, opening);
            check(random, &inputs, 21);
        }
    }
    let still = still_inputs(random, Parameters::unnumbered(2, 5, 1));
    check_written(random, &still);
}

/// The key of another ballot with another number: by one, or in one byte.
#[test]
fn equal_keys() {
    let random = &mut Random::new(645);
    for (from, to) in pairs_of_places() {
        let parameters = Parameters::unnumbered(u32::MAX, 2, 1);
        let mut inputs = inputs(random, parameters);
        let opening = inputs.ballot_openings(0)[from];
        for bit in [0, 1, 7, 8, 16, 24, 31] {
            let number = (opening.number ^ 1 << bit) % u32::MAX;
            put_opening(&mut inputs, Slot { ballot: 1, slot: to }, Opening { number, ..opening });
            check(random, &inputs, 0);
        }
        put_opening(&mut inputs, Slot { ballot: 1, slot: to }, opening);
        check(random, &inputs, 21);
    }
}

/// An opening as they were searched for: a key of four bytes eight times, and the number 0.
fn searched(k: u32) -> Opening {
    Opening { key: k.to_be_bytes().repeat(8).try_into().unwrap(), number: 0 }
}

/// The third slot of ballot 7 and the sixth of ballot 9, with these openings.
fn with_openings(random: &mut Random, form: Form, [first, second]: [Opening; 2]) -> Inputs {
    let mut inputs = in_form(&any_inputs(random, 3), form);
    inputs.ids = vec![7, 8, 9];
    put_opening(&mut inputs, Slot { ballot: 0, slot: 2 }, first);
    put_opening(&mut inputs, Slot { ballot: 2, slot: 5 }, second);
    inputs
}

/// Commitments whose first five bytes are equal, or their last five: such openings were searched
/// for. All bytes of a commitment count.
#[test]
fn commitments_that_begin_or_end_alike() {
    let random = &mut Random::new(652);
    let [unnumbered, numbered] = FORMS;
    for (form, keys, equal) in [
        (unnumbered, [481_402, 1_049_026], 0..5),
        (unnumbered, [1_049_026, 481_402], 0..5),
        (unnumbered, [272_240, 405_408], 27..32),
        (unnumbered, [405_408, 272_240], 27..32),
        (numbered, [68_611, 1_181_599], 0..5),
        (numbered, [27_595, 4_434_110], 27..32),
    ] {
        let pair = keys.map(searched);
        let mut inputs = with_openings(random, form, pair);
        let secrets = Secrets::new(&inputs);
        let (first, second) = (secrets.ballot_commitments(0)[2], secrets.ballot_commitments(2)[5]);
        assert_eq!(first[equal.clone()], second[equal]);
        check_accepted(random, &inputs);
        put_opening(&mut inputs, Slot { ballot: 2, slot: 5 }, pair[0]);
        for kind in KINDS {
            let call = PartCall::of(random, inputs.clone(), kind);
            assert_eq!(answer(call), due(form, 21), "{kind:?} {form:?}");
        }
    }
}

/// Ballots cast again with 0C, one and all of them, under ids that differ in one bit: the board is
/// accepted, and none of its commitments is another's.
#[test]
fn equal_openings_that_stand() {
    let random = &mut Random::new(653);
    for (election, bit) in ELECTIONS.into_iter().zip([0, 1, 7, 8, 15, 16, 23, 24, 30, 31, 31, 0]) {
        let mut inputs = inputs(random, Parameters::numbered(election, M, 4, 1));
        inputs.ids = vec![0, 1 << bit, u32::MAX - (1 << (31 - bit)), u32::MAX];
        inputs.ids.sort_unstable();
        copy_ballot(&mut inputs, 0, 1);
        check_accepted(random, &inputs);
        (2..4).for_each(|ballot| copy_ballot(&mut inputs, 0, ballot));
        check_accepted(random, &inputs);
        let opening = inputs.ballot_openings(0)[0];
        (0..4).for_each(|ballot| put_ballot(&mut inputs, ballot, [opening; 6]));
        mirror_ballots(&mut inputs);
        check_accepted(random, &inputs);
        let mut call = PartCall::of(random, inputs.clone(), (1, BOTH));
        run(&mut call).unwrap();
        let six = |at: usize| call.out[at..][..192].chunks(32).map(<[u8]>::to_vec);
        let layout = Layout::new(&inputs.parameters);
        let ballots = (0..4).flat_map(|j| six(layout.ballot_commitment(j, 0)));
        let entries = (0..8).flat_map(|at| six(layout.entry_commitment(at / 4, at % 4, 0)));
        assert_eq!(ballots.chain(entries).collect::<BTreeSet<_>>().len(), 72);
    }
}

/// One key for all: then the numbers have to differ from ballot to ballot.
#[test]
fn one_key_for_all() {
    let random = &mut Random::new(646);
    let mut inputs = inputs(random, Parameters::unnumbered(u32::MAX, 9, 1));
    inputs.keys.fill(0x5A);
    check_written(random, &inputs);
    for (ballot, slot) in [(1, 0), (4, 3), (8, 5)] {
        let mut copied = inputs.clone();
        let from = Slot { ballot: random.index(ballot), slot: random.index(6) };
        let number = inputs.ballot_openings(from.ballot)[from.slot].number;
        put_opening(&mut copied, Slot { ballot, slot }, Opening { key: [0x5A; 32], number });
        check(random, &copied, 21);
    }
    inputs.votes.fill(0);
    inputs.numbers.fill(0);
    check(random, &inputs, 21);
}

/// Lists that would show the ballots' commitments, or one commitment everywhere.
#[test]
fn entries_do_not_count() {
    let random = &mut Random::new(647);
    for n in [1, 2, 4] {
        let mut inputs = any_inputs(random, n);
        mirror_ballots(&mut inputs);
        check_written(random, &inputs);
        let mut still = still_inputs(random, Parameters::unnumbered(M, n, 1));
        still.keys[192 * n as usize..].fill(7);
        check_written(random, &still);
    }
}

/// The ids, and the order of the ballots, do not matter.
#[test]
fn under_any_id() {
    let random = &mut Random::new(648);
    for ids in [[0, 1, 2], [7, 300, 70_000], [0, 1 << 31, u32::MAX]] {
        let mut inputs = any_inputs(random, 3);
        inputs.ids = ids.to_vec();
        check(random, &inputs, 0);
        copy_ballot(&mut inputs, 0, 2);
        check(random, &inputs, 21);
    }
}

/// The smallest and the largest modulus, with numbers at the limits.
#[test]
fn numbers_at_the_limits() {
    let random = &mut Random::new(649);
    for modulus in [2, 3, u32::MAX - 1, u32::MAX] {
        let mut inputs = inputs(random, Parameters::unnumbered(modulus, 3, 1));
        for (slot, number) in [(0, 0), (3, modulus - 1), (5, modulus - 2)] {
            let key = random.bytes(32).try_into().unwrap();
            put_opening(&mut inputs, Slot { ballot: 0, slot }, Opening { key, number });
            check(random, &inputs, 0);
            let mut copied = inputs.clone();
            for to in 0..6 {
                let to = Slot { ballot: 2, slot: to };
                copy_opening(&mut copied, Slot { ballot: 0, slot }, to);
                check(random, &copied, 21);
            }
        }
    }
}

/// What is broken beside a copy, and what is answered.
type Break = (u8, fn(&mut PartCall));

/// Of the dice, the mask and the sides only what the call is given.
fn breaks(call: &PartCall) -> Vec<Break> {
    let mut all: Vec<Break> = vec![
        (3, |call| call.inputs.parameters.modulus = 1),
        (3, |call| call.inputs.parameters.n = 4097),
        (18, |call| call.inputs.keys.truncate(192)),
        (18, |call| call.out.clear()),
        (5, |call| call.inputs.ids[2] = 0),
        (10, |call| call.inputs.votes[2] = M),
        (10, |call| *call.inputs.numbers.last_mut().unwrap() = u32::MAX),
        (19, |call| call.inputs.permutations[0] = 3),
        (19, |call| *call.inputs.permutations.last_mut().unwrap() = u16::MAX),
    ];
    if call.has_dice() {
        all.push((18, |call| call.dice.truncate(29)));
        all.push((6, |call| call.dice[29] = b'7'));
    }
    if call.has_mask() {
        all.push((7, |call| call.mask = 0b11));
    }
    if call.has_sides() {
        all.push((11, |call| call.sides[2] = 2));
    }
    all
}

/// With each other misuse the other one is answered.
#[test]
fn behind_every_other_refusal() {
    let random = &mut Random::new(650);
    for (kind, form) in KINDS.into_iter().flat_map(|kind| FORMS.map(|form| (kind, form))) {
        let mut call = PartCall::honest(random, Parameters { form, modulus: M, n: 3, m: 1 }, kind);
        copy_ballot(&mut call.inputs, 0, 1);
        assert_eq!(answer(call.clone()), due(form, 21), "{kind:?}");
        for (number, change) in breaks(&call) {
            let mut call = call.clone();
            change(&mut call);
            assert_eq!(answer(call), number, "{kind:?}");
        }
    }
}

/// Lent parts are hashed and not looked at: the part one of other inputs, with copies, is lent with
/// honest inputs, and the mask is drawn on it; and the other way round.
#[test]
fn lent_parts_with_copies() {
    let random = &mut Random::new(651);
    for form in FORMS {
        let honest = inputs(random, Parameters { form, modulus: M, n: 3, m: 1 });
        let mut copied = honest.clone();
        copy_ballot(&mut copied, 0, 2);
        let [with, without] = [&copied, &honest].map(|inputs| Secrets::new(inputs).part_one());
        for kind in [(2, BOTH), (3, BOTH)] {
            let call = PartCall::of(random, honest.clone(), kind);
            assert_eq!(answer(PartCall { part_one: with.clone(), ..call }), 0);
            let call = PartCall::of(random, copied.clone(), kind);
            assert_eq!(answer(PartCall { part_one: without.clone(), ..call }), due(form, 21));
        }
        let dice = random.dice();
        let mask = drawn_mask(1, &seed(&dice, &with));
        assert_eq!(mask_entry(&honest.parameters, &dice, &with), Ok(mask));
    }
}
