//! Calls with more ballots than a byte counts, up to the most: what is refused far behind.

use super::{answer, calls, check, run};
use paddockyear_tests::boards::calls::misuse::check_each;
use paddockyear_tests::boards::calls::parts::PartCall;
use paddockyear_tests::boards::copies::{copy_ballot, copy_opening, put_ballot, Slot};
use paddockyear_tests::boards::{mistaken, BOTH, FAR_PLACES, FORMS};
use paddockyear_tests::random::Random;
use paddockyear_tests::reference::terms::{Opening, Parameters};

const M: u32 = 100;
const MOST: usize = 4096;

fn most_ballots(seed: u64) -> Vec<PartCall> {
    calls(seed, Parameters::unnumbered(M, MOST as u32, 1))
}

/// With another value at this place of what it is given, the call is refused. It is changed back,
/// since copies of many ballots take time.
#[track_caller]
fn refused<T>(
    call: &mut PartCall,
    number: u8,
    place: impl Fn(&mut PartCall) -> &mut T,
    mut other: T,
) {
    std::mem::swap(place(call), &mut other);
    assert_eq!(run(call), Err(number), "{:?}", (call.part, call.draws));
    std::mem::swap(place(call), &mut other);
}

/// Of the kind that is lent most.
#[test]
fn every_misuse() {
    let parameters = Parameters::unnumbered(M, MOST as u32, 1);
    check_each(&PartCall::honest(&mut Random::new(270), parameters, (3, BOTH)), answer);
}

/// Part one of a numbered election, and part two that is drawn on it.
#[test]
fn every_misuse_numbered() {
    for (kind, n) in [((1, BOTH), MOST as u32), ((2, BOTH), 257)] {
        let parameters = Parameters::numbered(u32::MAX, M, n, 1);
        check_each(&PartCall::honest(&mut Random::new(278), parameters, kind), answer);
    }
}

/// An id that is not above the one before, far behind.
#[test]
fn rule_5_ids() {
    for mut call in most_ballots(271) {
        check(&call, 0, |call| call.inputs.ids = (0..MOST as u32).collect());
        for ballot in [256, 1024, 1025, MOST - 1] {
            let before = call.inputs.ids[ballot - 1];
            refused(&mut call, 5, |call| &mut call.inputs.ids[ballot], before);
        }
    }
}

/// Votes, ballots' numbers, the first halves of the last list, and sides.
#[test]
fn rules_10_and_11_far_numbers() {
    for mut call in most_ballots(272) {
        let before = call.clone();
        for ballot in [256, 1024, MOST - 1] {
            refused(&mut call, 10, |call| &mut call.inputs.votes[ballot], M);
            refused(&mut call, 10, |call| &mut call.inputs.numbers[5 * ballot], M);
            refused(&mut call, 10, |call| &mut call.inputs.numbers[20 * MOST + 3 * ballot], M);
            if call.has_sides() {
                refused(&mut call, 11, |call| &mut call.sides[ballot], 2);
            }
        }
        assert!(call == before);
    }
}

/// A far place is left out of a permutation for one that it may be taken for.
#[test]
fn rule_19_far_places() {
    let former = calls(273, Parameters::unnumbered(M, 1025, 1));
    for mut call in former.into_iter().chain(most_ballots(274)) {
        let before = call.clone();
        let n = call.inputs.parameters.ballots();
        let far = FAR_PLACES.into_iter().filter(|&place| place < n).map(|place| place as u16);
        for (place, start) in far.zip([0, 5 * n].into_iter().cycle()) {
            let permutation = &call.inputs.permutations[start..];
            let at = start + permutation.iter().position(|&from| from == place).unwrap();
            for other in mistaken(place) {
                refused(&mut call, 19, |call| &mut call.inputs.permutations[at], other);
            }
        }
        assert!(call == before);
    }
}

/// A far ballot with one commitment of another, and the last ballot with all six of the first.
#[test]
fn rule_21_far_copies() {
    for (turn, mut call) in most_ballots(285).into_iter().enumerate() {
        let before = call.clone();
        for (earlier, later) in [(0, MOST - 1), (42, 43), (683, 2730), (2730, 2731)] {
            let (from, to) = ((turn + earlier) % 6, (turn + later + 1) % 6);
            let six = call.inputs.ballot_openings(later);
            let from = Slot { ballot: earlier, slot: from };
            copy_opening(&mut call.inputs, from, Slot { ballot: later, slot: to });
            assert_eq!(run(&mut call), Err(21), "{earlier} and {later}");
            put_ballot(&mut call.inputs, later, six);
        }
        assert!(call == before);
        copy_ballot(&mut call.inputs, 0, MOST - 1);
        assert_eq!(run(&mut call), Err(21));
        assert!(call.out == before.out);
    }
}

/// One key for all, so that numbers alone tell the ballots apart: they rise or fall. With 0C places
/// do, too.
#[test]
fn rule_21_one_key() {
    for (form, copied) in FORMS.into_iter().zip([21, 0]) {
        check_one_key(Parameters { form, modulus: u32::MAX, n: MOST as u32, m: 1 }, copied);
    }
}

fn check_one_key(parameters: Parameters, copied: u8) {
    let mut call = PartCall::honest(&mut Random::new(286), parameters, (1, BOTH));
    call.inputs.keys.fill(0);
    for number in [|k: usize| k as u32, |k: usize| u32::MAX - 1 - k as u32] {
        for ballot in 0..MOST {
            let opening = |slot| Opening { key: [0; 32], number: number(6 * ballot + slot) };
            put_ballot(&mut call.inputs, ballot, std::array::from_fn(opening));
        }
        check(&call, 0, |_| ());
        check(&call, copied, |call| {
            let (from, to) = (Slot { ballot: 0, slot: 5 }, Slot { ballot: MOST - 1, slot: 0 });
            copy_opening(&mut call.inputs, from, to);
        });
    }
}
