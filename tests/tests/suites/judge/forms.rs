//! The two forms of the first command: 01, and 0C with the election's number.

use std::collections::BTreeSet;

use super::verdict;
use crate::subject::judge;
use paddockyear_tests::boards::damage::{Damaged, Forgery};
use paddockyear_tests::boards::*;
use paddockyear_tests::random::Random;
use paddockyear_tests::reference::drawing::{drawn_mask, drawn_sides, seed};
use paddockyear_tests::reference::judge::{Fault, Judging, JUDGINGS};
use paddockyear_tests::reference::terms::{sorted, Edition, Form, Parameters, NOW};
use paddockyear_tests::reference::writer::{Inputs, Secrets};

/// Both judgings find this fault.
#[track_caller]
fn refused(record: &[u8], number: u8, place: usize) {
    for judging in JUDGINGS {
        assert_eq!(judge(record, judging), Err(Fault { number, place }), "{judging:?}");
    }
}

/// Any number stands, by either judging.
#[test]
fn every_number() {
    let random = &mut Random::new(400);
    for election in ELECTIONS.into_iter().chain((0..32).map(|bit| 1 << bit)) {
        let board = honest(random, Parameters::numbered(election, 1000, 4, 1), BOTH);
        let record = board.record();
        assert_eq!(record[..5], [&[0x0C][..], &election.to_be_bytes()].concat());
        for judging in JUDGINGS {
            assert_eq!(judge(&record, judging), Ok(sorted(&board.inputs.votes)), "{election}");
        }
    }
}

/// A record that ends inside its first command, by the width of the command that it is, or behind.
#[test]
fn cuts() {
    let random = &mut Random::new(401);
    for (form, width) in [(Form::Unnumbered, 8), (Form::Numbered(0x0100_000C), 12)] {
        let record = honest(random, Parameters { form, modulus: 9, n: 2, m: 1 }, BOTH).record();
        for length in 0..=13 {
            let place = if length < width { 0 } else { width };
            refused(&record[..length], 1, place);
        }
    }
}

/// The first byte alone, before fewer operands than either command has, and of a whole record.
#[test]
fn every_first_byte() {
    let random = &mut Random::new(402);
    let records = FORMS.map(|form| {
        honest(random, Parameters { form, modulus: 0x0101_0101, n: 2, m: 1 }, BOTH).record()
    });
    for byte in 0..=255 {
        let number = if [0x01, 0x0C].contains(&byte) { 1 } else { 2 };
        for operands in 0..7 {
            refused(&[&[byte][..], &[1; 7][..operands]].concat(), number, 0);
        }
        for record in records.iter().filter(|_| number == 2) {
            refused(&[&[byte][..], &record[1..]].concat(), 2, 0);
        }
    }
}

/// Operands of 0C are not looked at before all of them are there, nor those of 01.
#[test]
fn limits_of_a_cut_command() {
    let zeros = |code| [&[code][..], &[0; 11]].concat();
    for (bytes, width) in [(zeros(0x01), 8), (zeros(0x0C), 12), (vec![0x0C; 12], 12)] {
        for length in 1..width {
            refused(&bytes[..length], 1, 0);
        }
    }
    refused(&zeros(0x01), 3, 0);
    refused(&zeros(0x0C), 3, 0);
    // n is 3,084 and m is 12.
    refused(&[0x0C; 12], 1, 12);
}

/// 01 read as 0C: M is the number, then come n, m and 02 as M, and the id as n, m and what follows.
#[test]
fn unnumbered_read_as_numbered() {
    let random = &mut Random::new(403);
    let mut read = |ids: [u32; 2]| {
        let mut inputs = inputs(random, Parameters::unnumbered(100, 2, 1));
        inputs.ids = ids.to_vec();
        let mut record = board(random, &inputs, BOTH).record();
        assert_eq!(record[..9], [0x01, 0, 0, 0, 100, 0, 2, 1, 0x02]);
        record[0] = 0x0C;
        record
    };
    for (id, number, place) in [
        (0, 3, 0),
        (7, 3, 0),
        (0x0000_0102, 3, 0),
        (0x0001_0002, 3, 0),
        (0x0001_0D02, 3, 0),
        (0x1001_0102, 3, 0),
        (0x0001_0101, 2, 12),
        (0x0001_010C, 2, 12),
        (0x0001_0103, 2, 12),
        (0x1000_0C02, 2, 209),
        (0x0001_0102, 2, 209),
    ] {
        refused(&read([id, 0x2000_0001]), number, place);
    }
    // The next id's last byte stands where the first list entry is due, a commitment's in its list.
    let record = read([0x0001_0102, 0x2000_0003]);
    assert_ne!(record[210..213], [0, 0, 0]);
    refused(&record, 4, 209);
    refused(&record[..209], 1, 209);
    refused(&record[..208], 1, 12);
    refused(&record[..12], 1, 12);
}

/// 0C read as 01: the number is M, then comes M as n, m and what follows.
#[test]
fn numbered_read_as_unnumbered() {
    let random = &mut Random::new(404);
    let mut read = |election: u32, modulus: u32| {
        let mut record =
            honest(random, Parameters::numbered(election, modulus, 1, 1), BOTH).record();
        record[0] = 0x01;
        record
    };
    for (election, modulus, number, place) in [
        (0, 0x0001_0102, 3, 0),
        (1, 0x0001_0102, 3, 0),
        (2, 100, 3, 0),
        (2, 0x0001_0002, 3, 0),
        (2, 0x0001_0D02, 3, 0),
        (2, 0x1001_0102, 3, 0),
        (2, 0x0001_0101, 2, 8),
        (u32::MAX, 0x1000_0C0C, 2, 8),
        (u32::MAX, u32::MAX, 3, 0),
    ] {
        refused(&read(election, modulus), number, place);
    }
    let mut record = read(2, 0x0001_0102);
    for (byte, number) in [(0x0C, 2), (0x01, 2), (0x02, 2), (0x03, 4)] {
        // The last commitment's bytes stand where the first list entry is due.
        record[205..208].copy_from_slice(&[byte, 1, 0]);
        refused(&record, number, 205);
    }
    refused(&record[..205], 1, 205);
    refused(&record[..204], 1, 8);
}

/// Plain judging finds in a record with 0C what it finds in the same with 01, 4 bytes further on,
/// where its commitments are those of its form.
#[test]
fn plainly_as_unnumbered() {
    let random = &mut Random::new(405);
    let mut met = BTreeSet::new();
    let edition = Edition { numbered: false, ..NOW };
    for _ in 0..1_500 {
        let mut damaged = Damaged::any(edition, random, (6, 2), Judging::Plain);
        let (record, _) = damaged.record(random, Judging::Plain);
        if record.first() != Some(&0x01) {
            continue;
        }
        let found = judge(&record, Judging::Plain).unwrap_err();
        let longer = if found.place == 0 { 0 } else { 4 };
        let due = Fault { place: found.place + longer, ..found };
        damaged.inputs.parameters.form = Form::Numbered(any_number(random));
        let (record, _) = damaged.record(random, Judging::Plain);
        assert_eq!((record[0], judge(&record, Judging::Plain)), (0x0C, Err(due)));
        met.insert(due.number);
    }
    assert!(met.into_iter().eq((1..=17).chain([21]).filter(|rule| ![8, 12].contains(rule))));
}

fn any_number(random: &mut Random) -> u32 {
    match random.below(2) {
        0 => random.pick(&ELECTIONS),
        _ => random.word() as u32,
    }
}

/// Any number goes into both draws and into every commitment: with another one, drawn judging finds
/// another mask, and plain judging an opening that does not give its commitment.
#[test]
fn other_numbers_draw_otherwise() {
    let random = &mut Random::new(406);
    let board = honest(random, Parameters::numbered(7, 100, 20, 8), BOTH);
    let (record, layout) = (board.record(), Layout::new(&board.inputs.parameters));
    for bit in 0..32 {
        let mut other = record.clone();
        other[1 + bit / 8] ^= 1 << (bit % 8);
        let faults = [(13, layout.ballot_half(0)), (8, layout.first_dice())];
        for (judging, (number, place)) in JUDGINGS.into_iter().zip(faults) {
            assert_eq!(judge(&other, judging), Err(Fault { number, place }), "bit {bit}");
        }
    }
}

/// Part one of one form before parts two and three that were drawn for another: they open the same.
#[test]
fn parts_of_two_forms() {
    let random = &mut Random::new(407);
    let forms = [Form::Unnumbered, Form::Numbered(0), Form::Numbered(1), Form::Numbered(1 << 24)];
    let inputs = inputs(random, Parameters::unnumbered(100, 20, 8));
    let boards = forms.map(|form| {
        let parameters = Parameters { form, ..inputs.parameters };
        board_with_dice(random, &Inputs { parameters, ..inputs.clone() }, &two_throws(), BOTH)
    });
    for (first, form) in boards.iter().zip(forms) {
        for (others, other) in boards.iter().zip(forms) {
            let record = [&first.parts[0][..], &others.parts[1], &others.parts[2]].concat();
            assert_eq!(judge(&record, Judging::Plain), Ok(sorted(&inputs.votes)));
            let layout = Layout::new(&first.inputs.parameters);
            let fault = Fault { number: 8, place: layout.first_dice() };
            let due = if form == other { Ok(sorted(&inputs.votes)) } else { Err(fault) };
            assert_eq!(judge(&record, Judging::Drawn), due, "{form:?} and {other:?}");
        }
    }
}

/// The ballots and lists of one form behind the first command of another, with what is drawn there:
/// the first opening gives no commitment.
#[test]
fn commitments_of_another_form() {
    let random = &mut Random::new(410);
    let forms = [Form::Unnumbered, Form::Numbered(0), Form::Numbered(1), Form::Numbered(1 << 24)];
    for (form, other) in forms.into_iter().flat_map(|form| forms.map(|other| (form, other))) {
        let inputs = inputs(random, Parameters { form, modulus: 100, n: 3, m: 2 });
        let mut secrets = Secrets::new(&inputs);
        secrets.scheme = other.scheme();
        let forgery = Forgery::new(secrets, random.mask(2));
        for judging in JUDGINGS {
            let fault = Fault { number: 13, place: forgery.layout.ballot_half(0) };
            let due = if form == other { Ok(sorted(&inputs.votes)) } else { Err(fault) };
            let record = forgery.record(random, judging);
            assert_eq!(judge(&record, judging), due, "{other:?} behind {form:?}");
        }
    }
}

fn two_throws() -> [Vec<u8>; 2] {
    [b"123456".repeat(5), b"665544".repeat(5)]
}

/// The same with the mask that the first part draws: the sides are those of another record.
#[test]
fn third_part_of_another_form() {
    let random = &mut Random::new(408);
    let [first, second] = two_throws();
    for [own, other] in [FORMS, [FORMS[1], FORMS[0]], [FORMS[1], Form::Numbered(0)]] {
        let inputs = inputs(random, Parameters { form: own, modulus: 100, n: 40, m: 3 });
        let secrets = Secrets::new(&inputs);
        let one = secrets.part_one();
        let mask = drawn_mask(3, &seed(&first, &one));
        let two = secrets.part_two(&first, mask);
        let mut elsewhere = secrets.clone();
        elsewhere.parameters.form = other;
        let written = |before: Vec<u8>| {
            let sides = drawn_sides(40, &seed(&second, &before));
            (secrets.part_three(&second, mask, &sides), sides)
        };
        let (due, sides) = written([&one[..], &two].concat());
        let (drawn_elsewhere, others) = written([&elsewhere.part_one()[..], &two].concat());
        let record = |three: &[u8]| [&one[..], &two, three].concat();
        assert_eq!(judge(&record(&due), Judging::Drawn), Ok(sorted(&inputs.votes)));
        let ballot = (0..40).find(|&j| sides[j] != others[j]).unwrap();
        let place = Layout::new(&inputs.parameters).ballot_half(ballot);
        let found = judge(&record(&drawn_elsewhere), Judging::Drawn);
        assert_eq!(found, Err(Fault { number: 12, place }));
        assert_eq!(verdict(&record(&drawn_elsewhere), Judging::Plain), 0);
    }
}

/// Four bytes too few or too many behind the first byte: nothing else moves with them.
#[test]
fn number_left_out_or_put_in() {
    let random = &mut Random::new(409);
    let parameters = Parameters::numbered(0x0D0E_0F10, 100, 2, 1);
    let record = honest(random, parameters, BOTH).record();
    let without = [&record[..1], &record[5..]].concat();
    // n, m and 02 are M, and the id n and m.
    assert!(JUDGINGS.iter().all(|&judging| judge(&without, judging).is_err()));
    let twice = [&record[..5], &record[1..]].concat();
    // The number is M, and M n and m.
    refused(&twice, 3, 0);
    let unnumbered = [&[0x01][..], &record[5..]].concat();
    let place = Layout::new(&Parameters::unnumbered(100, 2, 1)).ballot_half(0);
    assert_eq!(judge(&unnumbered, Judging::Plain), Err(Fault { number: 13, place }));
}
