//! Damaged boards: each rule alone, every pair of breaches, cuts and flipped bits.

use std::collections::BTreeSet;

use crate::subject::judge;
use paddockyear_tests::boards::damage::*;
use paddockyear_tests::boards::*;
use paddockyear_tests::random::Random;
use paddockyear_tests::reference::judge::{Fault, Judging, JUDGINGS};
use paddockyear_tests::reference::terms::{Form, Parameters};
use paddockyear_tests::reference::writer::Secrets;

/// The same shape in both forms.
const SHAPES: [Parameters; 2] =
    [Parameters::unnumbered(100, 3, 2), Parameters::numbered(0xE1EC_7104, 100, 3, 2)];

/// The rules that a judging meets.
fn rules(judging: Judging) -> BTreeSet<u8> {
    let all = (1..=17).chain([21]);
    all.filter(|rule| judging == Judging::Drawn || ![8, 12].contains(rule)).collect()
}

#[test]
fn every_rule_alone_in_every_shape() {
    let random = &mut Random::new(20);
    for (form, judging) in FORMS.into_iter().flat_map(|form| JUDGINGS.map(|one| (form, one))) {
        let mut met = BTreeSet::new();
        for way in breaches(form, judging) {
            for (n, m) in [(1, 1), (2, 1), (3, 2), (5, 3)] {
                let parameters = Parameters { form, modulus: random.pick(&MODULI), n, m };
                if way.possible(&parameters) {
                    met.insert(one(random, parameters, way, judging));
                }
            }
        }
        assert_eq!(met, rules(judging));
    }
}

/// Damages a random board and answers the number that the judge found.
fn one(random: &mut Random, parameters: Parameters, one: Breach, judging: Judging) -> u8 {
    let secrets = Secrets::new(&inputs(random, parameters));
    let target = Target::any(random, &parameters);
    let mut forgery = Forgery::new(secrets, random.mask(parameters.m));
    let due = breach(&mut forgery, &target, &[one]);
    let found = judge(&forgery.record(random, judging), judging);
    assert_eq!(found, Err(due), "{:02X} {} {parameters:?} {target:?}", one.command, one.name);
    due.number
}

/// Every two breaches at once, in one command and across commands.
#[test]
fn every_pair() {
    every_pair_of_shape(21, SHAPES[0]);
}

#[test]
fn every_pair_numbered() {
    every_pair_of_shape(31, SHAPES[1]);
}

fn every_pair_of_shape(seed: u64, shape: Parameters) {
    let random = &mut Random::new(seed);
    let secrets = Secrets::new(&inputs(random, shape));
    let target = Target { ballot: 1, list: 2, position: 1, rank: 1, opened: 0 };
    for judging in JUDGINGS {
        let forgery = Forgery::new(secrets.clone(), 0b0101);
        let mut breaches = breaches(shape.form, judging);
        breaches.dedup_by_key(|breach| (breach.command, breach.number, breach.name));
        for (at, one) in breaches.iter().enumerate() {
            for other in breaches[..at].iter().filter(|other| one.goes_with(other)) {
                let mut forgery = forgery.clone();
                let due = breach(&mut forgery, &target, &[*one, *other]);
                let found = judge(&forgery.record(random, judging), judging);
                let names = [one, other].map(|breach| (breach.command, breach.name));
                assert_eq!(found, Err(due), "{names:?}");
            }
        }
    }
}

#[test]
fn random_boards_with_random_faults() {
    let random = &mut Random::new(22);
    for judging in JUDGINGS {
        for _ in 0..2_000 {
            let (record, due) = damaged(random, 9, 3, judging);
            assert_eq!(judge(&record, judging), Err(due));
        }
    }
}

/// Each way of these names in a drawn board of this shape, the first lists being opened.
fn far_faults(random: &mut Random, shape: Parameters, target: Target, names: &[&str]) {
    let secrets = Secrets::new(&inputs(random, shape));
    let ways = breaches(shape.form, Judging::Drawn).into_iter();
    let mut checked = 0;
    for one in ways.filter(|one| names.contains(&one.name)) {
        let mut forgery = Forgery::new(secrets.clone(), (1 << 2 * shape.m) - (1 << shape.m));
        let due = breach(&mut forgery, &target, &[one]);
        let record = forgery.record(random, Judging::Drawn);
        assert_eq!(judge(&record, Judging::Drawn), Err(due), "{}", one.name);
        checked += 1;
    }
    assert!(checked >= names.len());
}

/// High bytes of the operands and ballot numbers of four digits.
#[test]
fn faults_far_behind() {
    let target = Target { ballot: 1010, list: 1, position: 1000, rank: 0, opened: 0 };
    let names = ["the other side", "third key", "t above", "vote falls", "value below"];
    far_faults(&mut Random::new(23), Parameters::unnumbered(u32::MAX, 1024, 1), target, &names);
}

/// The last ballot of the most, and the last opening of the last opened list.
#[test]
fn faults_of_many_ballots() {
    let random = &mut Random::new(30);
    let target = Target { ballot: 4095, list: 1, position: 4094, rank: 0, opened: 0 };
    let names = ["the other side", "another vote", "value below"];
    far_faults(random, Parameters::unnumbered(u32::MAX, 4096, 1), target, &names);
    let target = Target { ballot: 1024, list: 3, position: 1023, rank: 1, opened: 1 };
    let names = ["t below", "another vote", "position taken", "position n", "value above"];
    far_faults(random, Parameters::unnumbered(u32::MAX, 1025, 2), target, &names);
}

/// The same of numbered elections, a ballot more than a byte counts among them.
#[test]
fn faults_of_many_ballots_numbered() {
    let random = &mut Random::new(32);
    let target = Target { ballot: 4095, list: 1, position: 4095, rank: 0, opened: 0 };
    let shape = Parameters::numbered(u32::MAX, u32::MAX, 4096, 1);
    far_faults(random, shape, target, &["the other side", "value above"]);
    let target = Target { ballot: 256, list: 2, position: 256, rank: 1, opened: 1 };
    let names = ["id falls", "position not due", "t above", "position taken", "vote falls"];
    far_faults(random, Parameters::numbered(256, u32::MAX, 257, 2), target, &names);
}

/// Every proper prefix is 1, at the command that it cuts.
#[test]
fn every_prefix() {
    let random = &mut Random::new(24);
    for form in FORMS {
        let parameters = Parameters { form, modulus: 9, n: 2, m: 1 };
        let record = honest(random, parameters, BOTH).record();
        let starts = Layout::new(&parameters).commands();
        for judging in JUDGINGS {
            for length in 0..record.len() {
                let place = *starts.iter().rfind(|&&start| start <= length).unwrap();
                assert_eq!(judge(&record[..length], judging), Err(Fault { number: 1, place }));
            }
        }
    }
}

/// Every other byte in a command's place is 2. (The first command's is one of two.)
#[test]
fn every_command_byte() {
    let random = &mut Random::new(25);
    for shape in SHAPES {
        let record = honest(random, shape, BOTH).record();
        for place in Layout::new(&shape).commands() {
            let due = if place == 0 { vec![0x01, 0x0C] } else { vec![record[place]] };
            for byte in (0..=255).filter(|byte| !due.contains(byte)).step_by(5) {
                let mut record = record.clone();
                record[place] = byte;
                for judging in JUDGINGS {
                    assert_eq!(judge(&record, judging), Err(Fault { number: 2, place }));
                }
            }
        }
    }
}

/// The byte of either first command in any other command's place, and none else changed.
#[test]
fn first_commands_later_in_the_record() {
    let random = &mut Random::new(33);
    for shape in SHAPES {
        let record = honest(random, shape, BOTH).record();
        for place in Layout::new(&shape).commands().into_iter().skip(1) {
            for byte in [0x01, 0x0C] {
                let mut record = record.clone();
                record[place] = byte;
                for judging in JUDGINGS {
                    assert_eq!(judge(&record, judging), Err(Fault { number: 2, place }));
                }
            }
        }
    }
}

/// A whole first command of either form between any two commands, and behind the end.
#[test]
fn first_commands_put_in() {
    let random = &mut Random::new(34);
    for shape in SHAPES {
        let record = honest(random, shape, BOTH).record();
        for form in FORMS {
            let command = first_command(form, 3);
            for place in Layout::new(&shape).commands().into_iter().skip(1) {
                let record = [&record[..place], &command, &record[place..]].concat();
                for judging in JUDGINGS {
                    assert_eq!(judge(&record, judging), Err(Fault { number: 2, place }));
                }
            }
            let behind = [&record[..], &command].concat();
            let fault = Fault { number: 17, place: record.len() };
            assert_eq!(judge(&behind, Judging::Drawn), Err(fault));
        }
    }
}

/// Behind an accepted record any bytes are 17.
#[test]
fn bytes_behind() {
    let random = &mut Random::new(26);
    for shape in SHAPES {
        let record = honest(random, shape, BOTH).record();
        let fault = Fault { number: 17, place: record.len() };
        for byte in 0..=255 {
            for judging in JUDGINGS {
                assert_eq!(judge(&[&record[..], &[byte]].concat(), judging), Err(fault));
            }
        }
        let twice = [&record[..], &record[..]].concat();
        assert_eq!(judge(&twice, Judging::Drawn), Err(fault));
    }
}

/// Plain judging passes a flipped bit only in dice that stay fair, in commitments that nothing opens,
/// and with 01 in the id, which no commitment knows there; every fault lies at the flipped command or
/// behind. Of M's bits only that.
#[test]
fn every_flipped_bit() {
    let random = &mut Random::new(27);
    for form in FORMS {
        every_flipped_bit_of(random, Parameters { form, modulus: u32::MAX, n: 1, m: 1 });
    }
}

fn every_flipped_bit_of(random: &mut Random, parameters: Parameters) {
    let board = honest(random, parameters, BOTH);
    let modulus = Layout::new(&parameters).modulus();
    let record = board.record();
    let free = free_places(&board, &record);
    let starts = Layout::new(&parameters).commands();
    for bit in 0..8 * record.len() {
        let (place, mut record) = (bit / 8, record.clone());
        record[place] ^= 1 << (bit % 8);
        let fair =
            !dice_places(&parameters).contains(&place) || (b'1'..=b'6').contains(&record[place]);
        let plain = judge(&record, Judging::Plain);
        if !(modulus..modulus + 4).contains(&place) {
            assert_eq!(plain.is_ok(), free.contains(&place) && fair, "bit {bit}: {plain:?}");
        }
        let start = *starts.iter().rfind(|&&start| start <= place).unwrap();
        for verdict in [plain, judge(&record, Judging::Drawn)] {
            assert!(verdict.map_or_else(|fault| fault.place, |_| record.len()) >= start);
        }
    }
}

/// Flipped bits and cuts anywhere in boards of any small shape.
#[test]
fn random_flips_and_cuts() {
    let random = &mut Random::new(28);
    for _ in 0..1_000 {
        let parameters = parameters(random, 4, 3);
        let record = honest(random, parameters, BOTH).record();
        let flipped = flipped(random, &record);
        let cut = random.index(record.len());
        for judging in JUDGINGS {
            let found = judge(&record[..cut], judging).unwrap_err();
            assert!(found.number == 1 && found.place <= cut);
            let place = judge(&flipped, judging).map_or_else(|fault| fault.place, |_| 0);
            assert!(place <= record.len());
        }
    }
}

/// Any bytes at all, and any bytes behind an honest beginning.
#[test]
fn noise() {
    let random = &mut Random::new(29);
    for shape in SHAPES {
        let record = honest(random, shape, BOTH).record();
        for length in 0..1_000 {
            let noise = random.bytes(length);
            let begun = [&record[..random.index(record.len())], &noise].concat();
            let first = [&[shape.form.code()][..], &noise].concat();
            for judging in JUDGINGS {
                for record in [&noise, &begun, &first] {
                    assert!(judge(record, judging).is_err());
                }
            }
        }
    }
}

fn dice_places(parameters: &Parameters) -> Vec<usize> {
    let layout = Layout::new(parameters);
    let dice = [layout.first_dice(), layout.second_dice()];
    dice.iter().flat_map(|place| place + 1..place + 31).collect()
}

/// For one ballot and two lists: the dice, the unopened side of ballot and list, and with 01 the id.
fn free_places(board: &Board, record: &[u8]) -> BTreeSet<usize> {
    let layout = Layout::new(&board.inputs.parameters);
    let hidden = 1 - usize::from(record[layout.ballot_half(0) + 3]);
    let compared = board.mask.trailing_zeros() as usize;
    let mut free: BTreeSet<usize> = dice_places(&board.inputs.parameters).into_iter().collect();
    if board.inputs.parameters.form == Form::Unnumbered {
        free.extend(layout.ballot(0) + 1..layout.ballot(0) + 5);
    }
    for commitments in [layout.ballot(0) + 5, layout.entry(compared, 0) + 4] {
        for row in 0..3 {
            let start = commitments + 32 * (2 * row + hidden);
            free.extend(start..start + 32);
        }
    }
    free
}
