//! Honest boards of many shapes are accepted, the drawn ones by both judgings.

use std::ops::RangeInclusive;

use super::verdict;
use crate::subject::judge;
use paddockyear_tests::boards::*;
use paddockyear_tests::random::Random;
use paddockyear_tests::reference::judge::{Fault, Judging, JUDGINGS};
use paddockyear_tests::reference::terms::{sorted, Form, Parameters};

fn accepted(board: &Board, judging: Judging) {
    let parameters = board.inputs.parameters;
    let record = board.record();
    assert_eq!(record.len(), parameters.record_length(), "{parameters:?}");
    assert_eq!(judge(&record, judging), Ok(sorted(&board.inputs.votes)), "{parameters:?}");
}

#[test]
fn of_any_shape() {
    let random = &mut Random::new(10);
    for _ in 0..150 {
        let parameters = parameters(random, 12, 12);
        let inputs = inputs(random, parameters);
        for draws in ALL_DRAWS {
            accepted(&board(random, &inputs, draws), Judging::Plain);
        }
        accepted(&board(random, &inputs, BOTH), Judging::Drawn);
    }
}

/// Every n from 1 to 40 with every m, the moduli in turn.
#[test]
fn of_every_shape() {
    of_every_shape_and_form(14, 1..=40, |_| Form::Unnumbered);
}

/// The same of fewer ballots with numbers of elections in turn.
#[test]
fn of_every_shape_numbered() {
    of_every_shape_and_form(16, 1..=16, |turn| Form::Numbered(ELECTIONS[turn % ELECTIONS.len()]));
}

fn of_every_shape_and_form(seed: u64, ballots: RangeInclusive<u32>, form: impl Fn(usize) -> Form) {
    let random = &mut Random::new(seed);
    for n in ballots {
        for m in 1..=12 {
            let turn = (n + m) as usize;
            let (form, modulus) = (form(turn), MODULI[turn % MODULI.len()]);
            let board = honest(random, Parameters { form, modulus, n, m }, BOTH);
            for judging in JUDGINGS {
                accepted(&board, judging);
            }
        }
    }
}

/// Indices above a byte, and ballot numbers of three and four digits.
#[test]
fn with_many_ballots() {
    let random = &mut Random::new(11);
    let shapes = [(99, 2), (100, 1), (256, 1), (1000, 1), (1024, 1), (1025, 3)];
    for (n, m) in MANY.map(|n| (n, 1)).into_iter().chain(shapes) {
        let board = honest(random, Parameters::unnumbered(u32::MAX, n, m), BOTH);
        accepted(&board, Judging::Plain);
        accepted(&board, Judging::Drawn);
    }
}

#[test]
fn with_many_ballots_numbered() {
    let random = &mut Random::new(17);
    for (election, n) in [(0, 257), (u32::MAX, 4096)] {
        let board = honest(random, Parameters::numbered(election, u32::MAX, n, 1), BOTH);
        accepted(&board, Judging::Plain);
        accepted(&board, Judging::Drawn);
    }
}

/// As many ballots and lists as there may be, and a byte more.
#[test]
fn longest_record_of_many_ballots() {
    let random = &mut Random::new(15);
    let board = honest(random, Parameters::unnumbered(u32::MAX, 4096, 12), BOTH);
    let mut record = board.record();
    assert_eq!(record.len(), 37_371_979);
    for judging in JUDGINGS {
        assert_eq!(judge(&record, judging), Ok(sorted(&board.inputs.votes)), "{judging:?}");
    }
    record.push(0x0B);
    let fault = Fault { number: 17, place: 37_371_979 };
    assert_eq!(judge(&record, Judging::Plain), Err(fault));
}

/// A given mask or given sides hold in drawn judging only where they happen to be the drawn ones.
#[test]
fn given_ones_are_refused_by_drawn_judging() {
    let random = &mut Random::new(12);
    for round in 0..20 {
        let form = FORMS[round % 2];
        let inputs = inputs(random, Parameters { form, modulus: 100, n: 40, m: 8 });
        let mask_given = board(random, &inputs, Draws { mask: false, sides: true }).record();
        assert_eq!(verdict(&mask_given, Judging::Drawn), 8);
        let sides_given = board(random, &inputs, Draws { mask: true, sides: false }).record();
        assert_eq!(verdict(&sides_given, Judging::Drawn), 12);
    }
}

#[test]
fn the_layout_finds_every_command() {
    let random = &mut Random::new(13);
    for _ in 0..30 {
        let parameters = parameters(random, 9, 5);
        let board = honest(random, parameters, BOTH);
        let (record, layout) = (board.record(), Layout::new(&parameters));
        let codes: Vec<u8> = layout.commands().iter().map(|&place| record[place]).collect();
        let count = |code: u8| codes.iter().filter(|&&other| other == code).count();
        let (n, mn) = (parameters.ballots(), parameters.m as usize * parameters.ballots());
        let counts: Vec<usize> = (1..=12).map(count).collect();
        let first = match parameters.form {
            Form::Unnumbered => [1, 0],
            Form::Numbered(_) => [0, 1],
        };
        assert_eq!(counts, [first[0], n, 2 * mn, 1, mn, 1, n, mn, n, mn, 1, first[1]]);
        assert_eq!(layout.end() + 1, record.len());
    }
}
