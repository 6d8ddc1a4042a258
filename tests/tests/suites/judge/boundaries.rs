//! For each rule of the judge the last accepted and the first refused value, in both forms.

use super::verdict;
use crate::subject::judge;
use paddockyear_tests::boards::damage::Forgery;
use paddockyear_tests::boards::*;
use paddockyear_tests::random::Random;
use paddockyear_tests::reference::drawing::{drawn_mask, drawn_sides, seed};
use paddockyear_tests::reference::judge::{Fault, Judging, JUDGINGS};
use paddockyear_tests::reference::terms::{difference, sorted, sum, Form, Opening, Parameters};
use paddockyear_tests::reference::writer::{self, Secrets};

const M: u32 = 100;
const SHAPES: [Parameters; 2] =
    [Parameters::unnumbered(M, 3, 2), Parameters::numbered(0x0304_0506, M, 3, 2)];
/// The mask of the forged boards: lists 1 and 2 are compared, 0 and 3 opened.
const MASK: u32 = 0b0110;

fn secrets(random: &mut Random, shape: Parameters) -> Secrets {
    let mut inputs = inputs(random, shape);
    inputs.votes = vec![24, 99, 0];
    Secrets::new(&inputs)
}

/// Both judgings answer `number`, 0 for accepted, after this change to a record of either form.
#[track_caller]
fn check(seed: u64, number: u8, change: impl Fn(&mut Forgery)) {
    let random = &mut Random::new(seed);
    for shape in SHAPES {
        let mut forgery = Forgery::new(secrets(random, shape), MASK);
        change(&mut forgery);
        for judging in JUDGINGS {
            let record = forgery.record(random, judging);
            assert_eq!(verdict(&record, judging), number, "{judging:?}, {:?}", shape.form);
        }
    }
}

fn accepted(record: &[u8]) {
    for judging in JUDGINGS {
        assert_eq!(verdict(record, judging), 0, "{judging:?}");
    }
}

/// Moves a row's halves so that the chosen one becomes `number`; their sum stays.
fn move_halves(six: &mut [Opening; 6], slot: usize, number: u32) {
    let total = sum(M, &[six[slot].number, six[slot ^ 1].number]);
    six[slot].number = number;
    six[slot ^ 1].number = difference(M, total, number);
}

#[test]
fn rule_1_and_17_the_length() {
    check(100, 0, |_| ());
    check(100, 1, |f| f.cut(f.secrets.parameters.record_length() - 1));
    check(100, 17, |f| f.append(&[0]));
}

#[test]
fn rule_3_limits() {
    let random = &mut Random::new(101);
    let many = MANY.map(|n| (2, n, 1));
    for (modulus, n, m) in many.into_iter().chain([(2, 1, 1), (u32::MAX, 1, 12), (2, 2, 12)]) {
        let record = honest(random, Parameters::unnumbered(modulus, n, m), BOTH).record();
        accepted(&record);
    }
    for (place, bytes) in [(0, &[0, 0, 0, 1][..]), (0, &[0; 4]), (4, &[0, 0]), (4, &[16, 1])] {
        check(101, 3, |f| f.set(f.layout.modulus() + place, bytes));
    }
    for m in [0, 13, 14, 255] {
        check(101, 3, |f| f.set(f.layout.modulus() + 6, &[m]));
    }
}

/// Every operand of 0C at its limits beside numbers of elections, of which every one stands.
#[test]
fn rule_3_numbered_limits() {
    let random = &mut Random::new(121);
    for election in ELECTIONS {
        for (modulus, n, m) in [(2, 1, 1), (u32::MAX, 2, 12)] {
            let parameters = Parameters::numbered(election, modulus, n, m);
            accepted(&honest(random, parameters, BOTH).record());
        }
        for (modulus, n, m) in
            [(1, 1, 1), (0, 1, 1), (2, 0, 1), (2, 4097, 1), (2, 65_535, 1), (2, 1, 0), (2, 1, 13)]
        {
            let record = writer::first_command(&Parameters::numbered(election, modulus, n, m));
            for judging in JUDGINGS {
                let fault = Fault { number: 3, place: 0 };
                assert_eq!(judge(&record, judging), Err(fault), "{modulus} {n} {m}");
            }
        }
    }
}

/// Only the limits are tested in the first command: a larger n or m makes the next due byte wrong.
#[test]
fn rule_3_does_not_look_at_the_length() {
    for n in [1024u16, 1025, 4096] {
        check(102, 2, |f| f.set(f.layout.modulus() + 4, &n.to_be_bytes()));
        check(102, 1, |f| {
            f.set(f.layout.modulus() + 4, &n.to_be_bytes());
            f.cut(f.layout.ballot(0));
        });
    }
}

/// Every n around its limit and some of those above, in a record that stops behind it.
#[test]
fn rule_3_every_n() {
    for (form, behind) in [(Form::Unnumbered, 8), (Form::Numbered(0x0002_0001), 12)] {
        for n in (0..5_000).chain((5_000..=u16::MAX).step_by(53)) {
            let record = first_command(form, n);
            let (number, place) = if (1..=4096).contains(&n) { (1, behind) } else { (3, 0) };
            for judging in JUDGINGS {
                assert_eq!(judge(&record, judging), Err(Fault { number, place }), "n = {n}");
            }
        }
    }
}

#[test]
fn rule_4_operands() {
    for (place, width) in operand_places() {
        for bit in 0..8 * width {
            check(103, 4, |f| f.flip(place(&f.layout) + bit / 8, 1 << (bit % 8)));
        }
    }
}

/// List, ballot, position and index operands, with their widths; in a link list and ballot.
fn operand_places() -> Vec<(fn(&Layout) -> usize, usize)> {
    vec![
        (|layout| layout.entry(0, 0) + 1, 3),
        (|layout| layout.entry(3, 2) + 1, 3),
        (|layout| layout.link(0, 0) + 1, 3),
        (|layout| layout.link(1, 2) + 1, 3),
        (|layout| layout.ballot_half(0) + 1, 2),
        (|layout| layout.ballot_half(2) + 1, 2),
        (|layout| layout.list_half(0, 0) + 1, 3),
        (|layout| layout.list_half(2, 1) + 1, 3),
        (|layout| layout.vote(0) + 1, 2),
        (|layout| layout.vote(2) + 1, 2),
        (|layout| layout.full_opening(0, 0) + 1, 3),
        (|layout| layout.full_opening(1, 2) + 1, 3),
    ]
}

#[test]
fn rule_5_ids() {
    for (ids, number) in [
        ([0, 1, 2], 0),
        ([0, 1, u32::MAX], 0),
        ([u32::MAX - 2, u32::MAX - 1, u32::MAX], 0),
        ([0, 0, 1], 5),
        ([7, 8, 8], 5),
        ([7, 8, 7], 5),
        ([255, 256, 1], 5),
        ([u32::MAX, 0, 1], 5),
    ] {
        check(104, number, |f| f.secrets.ids = ids.to_vec());
    }
}

#[test]
fn rule_6_dice() {
    let random = &mut Random::new(105);
    for (shape, [first, second]) in SHAPES.into_iter().zip([[b'1', b'6'], [b'6', b'1']]) {
        let dice = [vec![first; 30], vec![second; 30]];
        let inputs = inputs(random, shape);
        let record = board_with_dice(random, &inputs, &dice, BOTH).record();
        accepted(&record);
    }
    for dice in [Layout::first_dice, Layout::second_dice] {
        for die in 1..=30 {
            for character in [0, b'0', b'7', 255] {
                check(105, 6, |f| f.set(dice(&f.layout) + die, &[character]));
            }
        }
    }
}

/// Every mask of nine bits, and each single high bit.
#[test]
fn rule_7_mask_shape() {
    let random = &mut Random::new(106);
    for shape in SHAPES {
        let place = Layout::new(&shape).first_dice() + 31;
        let record = Forgery::new(secrets(random, shape), MASK).record(random, Judging::Plain);
        let high = (4..32).map(|bit| 1 | 1 << bit);
        for mask in (0..512).chain(high) {
            let mut record = record.clone();
            record[place..place + 4].copy_from_slice(&u32::to_be_bytes(mask));
            let stands = [0b0011, 0b0101, 0b1001, 0b0110, 0b1010, 0b1100].contains(&mask);
            assert_eq!(verdict(&record, Judging::Plain) == 7, !stands, "mask {mask}");
            assert_eq!(verdict(&record, Judging::Drawn) == 7, !stands, "mask {mask}");
        }
    }
}

/// Of the six masks of the right shape drawn judging accepts the drawn one.
#[test]
fn rule_8_mask_drawn() {
    let random = &mut Random::new(107);
    SHAPES.into_iter().for_each(|shape| rule_8_mask_drawn_of(random, shape));
}

fn rule_8_mask_drawn_of(random: &mut Random, shape: Parameters) {
    let inputs = inputs(random, shape);
    let honest = board(random, &inputs, BOTH);
    let (dice, one) = (&honest.parts[1][1..31], &honest.parts[0]);
    for mask in [0b0011, 0b0101, 0b1001, 0b0110, 0b1010, 0b1100] {
        let two = Secrets::new(&inputs).part_two(dice, mask);
        let before = [&one[..], &two].concat();
        let second = random.dice();
        let sides = drawn_sides(3, &seed(&second, &before));
        let three = Secrets::new(&inputs).part_three(&second, mask, &sides);
        let record = [before, three].concat();
        let drawn = mask == drawn_mask(2, &seed(dice, one));
        assert_eq!(verdict(&record, Judging::Plain), 0);
        assert_eq!(verdict(&record, Judging::Drawn), if drawn { 0 } else { 8 });
    }
}

#[test]
fn rule_9_link_positions() {
    // Position n - 1 stands in every honest list; in another ballot's link it is taken.
    check(108, 0, |f| assert!(f.secrets.places[1].contains(&2)));
    for rank in 0..2 {
        for ballot in 0..3 {
            for position in [3u16, 4, 256, 1023, 1024, 4095, 4096, 65_535] {
                check(108, 9, |f| {
                    f.set(f.layout.link(rank, ballot) + 4, &position.to_be_bytes());
                });
            }
        }
    }
    for (earlier, later) in [(0, 1), (0, 2), (1, 2)] {
        check(108, 9, |f| {
            let taken = f.secrets.places[2][earlier] as u16;
            f.set(f.layout.link(1, later) + 4, &taken.to_be_bytes());
        });
    }
}

/// The marks are one list's own: the same position in two lists stands.
#[test]
fn rule_9_other_lists() {
    let random = &mut Random::new(109);
    for shape in SHAPES {
        let mut inputs = inputs(random, shape);
        let first = inputs.permutations[..9].to_vec();
        inputs.permutations = first.repeat(4);
        let record = board(random, &inputs, BOTH).record();
        accepted(&record);
    }
}

#[test]
fn rule_10_t() {
    for t in [0, 1, M - 1] {
        check(110, 0, |f| {
            // The list's first half takes up what t lacks.
            let place = f.secrets.places[1][2];
            let first = f.secrets.lists[1][place][0].number;
            let moved = sum(M, &[first, difference(M, f.secrets.t(1, 2), t)]);
            move_halves(&mut f.secrets.lists[1][place], 0, moved);
            assert_eq!(f.secrets.t(1, 2), t);
        });
    }
    for t in [M, M + 1, 256 * M, u32::MAX] {
        check(110, 10, |f| f.set(f.layout.link(0, 2) + 6, &t.to_be_bytes()));
    }
}

#[test]
fn rule_10_opened_numbers() {
    for slot in 0..6 {
        for number in [0, M - 1] {
            check(111, 0, |f| move_halves(&mut f.secrets.ballots[2], slot, number));
            check(111, 0, |f| move_halves(&mut f.secrets.lists[1][2], slot, number));
            check(111, 0, |f| move_halves(&mut f.secrets.lists[3][2], slot, number));
        }
    }
    for (row, number) in [(0, M), (1, M), (2, M), (0, u32::MAX), (2, M + 1)] {
        let put = |six: &mut [Opening; 6]| {
            six[2 * row].number = number;
            six[2 * row + 1].number = number;
        };
        check(111, 10, |f| put(&mut f.secrets.ballots[2]));
        check(111, 10, |f| put(&mut f.secrets.lists[1][2]));
        check(111, 10, |f| put(&mut f.secrets.lists[3][2]));
    }
}

#[test]
fn rule_10_votes() {
    check(112, 0, |f| f.set(f.layout.vote(2) + 3, &(M - 1).to_be_bytes()));
    check(112, 10, |f| f.set(f.layout.vote(2) + 3, &M.to_be_bytes()));
    check(112, 10, |f| f.set(f.layout.vote(2) + 3, &[255; 4]));
}

/// At the largest modulus only the highest number is refused.
#[test]
fn rule_10_largest_modulus() {
    let random = &mut Random::new(113);
    for (form, judging) in FORMS.into_iter().flat_map(|form| JUDGINGS.map(|one| (form, one))) {
        let mut inputs = inputs(random, Parameters { form, modulus: u32::MAX, n: 2, m: 1 });
        inputs.votes = vec![u32::MAX - 1; 2];
        let secrets = Secrets::new(&inputs);
        let mut forgery = Forgery::new(secrets.clone(), 1);
        let record = forgery.record(random, judging);
        assert_eq!(judge(&record, judging), Ok(vec![u32::MAX - 1; 2]));
        forgery.set(forgery.layout.vote(1) + 3, &[255; 4]);
        assert_eq!(verdict(&forgery.record(random, judging), judging), 10);
    }
}

#[test]
fn rule_11_side_bytes() {
    let random = &mut Random::new(114);
    SHAPES.into_iter().for_each(|shape| rule_11_side_bytes_of(random, shape));
}

fn rule_11_side_bytes_of(random: &mut Random, shape: Parameters) {
    let secrets = secrets(random, shape);
    let dice = random.dice();
    let before = [secrets.part_one(), secrets.part_two(&dice, MASK)].concat();
    for ballot in 0..3 {
        for side in [0, 1] {
            let mut sides = random.sides(3);
            sides[ballot] = side;
            let record = [&before[..], &secrets.part_three(&dice, MASK, &sides)].concat();
            assert_eq!(verdict(&record, Judging::Plain), 0);
        }
        for side in [2, 3, 128, 255] {
            check(114, 11, |f| f.set(f.layout.ballot_half(ballot) + 3, &[side]));
        }
    }
}

/// With its openings the other side stands in plain judging and is 12 in drawn judging.
#[test]
fn rule_12_side_drawn() {
    let random = &mut Random::new(115);
    SHAPES.into_iter().for_each(|shape| rule_12_side_drawn_of(random, shape));
}

fn rule_12_side_drawn_of(random: &mut Random, shape: Parameters) {
    let inputs = inputs(random, shape);
    let honest = board(random, &inputs, BOTH);
    let [one, two, three] = &honest.parts;
    let layout = Layout::new(&shape);
    let start = one.len() + two.len();
    for ballot in 0..3 {
        let mut sides: Vec<u8> = (0..3).map(|j| three[layout.ballot_half(j) + 3 - start]).collect();
        sides[ballot] ^= 1;
        let other = Secrets::new(&inputs).part_three(&three[1..31], honest.mask, &sides);
        let record = [&one[..], two, &other].concat();
        assert_eq!(verdict(&record, Judging::Plain), 0);
        let fault = judge(&record, Judging::Drawn).unwrap_err();
        assert_eq!((fault.number, fault.place), (12, layout.ballot_half(ballot)));
    }
}

#[test]
fn rule_13_openings() {
    for opening in 0..3 {
        for byte in 0..32 {
            check(116, 13, |f| f.flip(f.layout.ballot_half(1) + 4 + 36 * opening + byte, 1));
            check(116, 13, |f| f.flip(f.layout.list_half(1, 1) + 4 + 36 * opening + byte, 1));
        }
    }
    for opening in 0..6 {
        for byte in 0..32 {
            check(116, 13, |f| f.flip(f.layout.full_opening(1, 1) + 4 + 36 * opening + byte, 1));
        }
    }
}

#[test]
fn rule_14_halves() {
    for (shift, number) in [(0, 0), (1, 14), (M - 1, 14), (M / 2, 14)] {
        check(117, number, |f| {
            let t = sum(M, &[f.secrets.t(2, 1), shift]);
            f.set(f.layout.link(1, 1) + 6, &t.to_be_bytes());
        });
    }
}

#[test]
fn rule_15_votes() {
    check(118, 15, |f| f.set(f.layout.vote(2) + 3, &23u32.to_be_bytes()));
    // Equal and rising ones stand; that they are not the list's values shows at the last 0A.
    check(118, 16, |f| f.set(f.layout.vote(2) + 3, &24u32.to_be_bytes()));
    check(118, 16, |f| f.set(f.layout.vote(2) + 3, &25u32.to_be_bytes()));
    let random = &mut Random::new(118);
    for shape in SHAPES {
        let mut inputs = inputs(random, shape);
        inputs.votes = vec![5; 3];
        let record = board(random, &inputs, BOTH).record();
        accepted(&record);
    }
}

/// 2, 2, 5 and 2, 5, 5 are not alike.
#[test]
fn rule_16_counts() {
    let random = &mut Random::new(119);
    SHAPES.into_iter().for_each(|shape| rule_16_counts_of(random, shape));
}

fn rule_16_counts_of(random: &mut Random, shape: Parameters) {
    let mut inputs = inputs(random, shape);
    inputs.votes = vec![2, 5, 5];
    let layout = Layout::new(&shape);
    for (votes, number) in [([2u32, 5, 5], 0), ([2, 2, 5], 16), ([2, 5, 6], 16), ([5, 5, 5], 16)] {
        let mut forgery = Forgery::new(Secrets::new(&inputs), MASK);
        forgery.secrets.votes = votes.to_vec();
        for judging in JUDGINGS {
            let verdict = judge(&forgery.record(random, judging), judging);
            let found = verdict.map_or_else(|fault| (fault.number, fault.place), |_| (0, 0));
            let place = if number == 16 { layout.full_opening(0, 2) } else { 0 };
            assert_eq!(found, (number, place));
        }
    }
}

/// A vote that differs from the list's value by one bit, whichever.
#[test]
fn rule_16_every_bit() {
    let random = &mut Random::new(120);
    SHAPES.into_iter().for_each(|shape| rule_16_every_bit_of(random, shape));
}

fn rule_16_every_bit_of(random: &mut Random, shape: Parameters) {
    let mut inputs = inputs(random, Parameters { modulus: u32::MAX, ..shape });
    inputs.votes = vec![0x0102_0304, 0x1122_3344, 0x7654_3210];
    let fault = Fault { number: 16, place: Layout::new(&shape).full_opening(0, 2) };
    for bit in 0..32 {
        let mut forgery = Forgery::new(Secrets::new(&inputs), MASK);
        forgery.secrets.votes[1] ^= 1 << bit;
        forgery.secrets.votes = sorted(&forgery.secrets.votes);
        for judging in JUDGINGS {
            let record = forgery.record(random, judging);
            assert_eq!(judge(&record, judging), Err(fault), "bit {bit}");
        }
    }
}
