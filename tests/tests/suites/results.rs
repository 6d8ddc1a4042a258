//! What the receipt check, the announced votes and the tally answer and write. Whatever record
//! starts with 01, the receipt check answers the same with 0C in its place; votes are not announced
//! then, since the commitments are those of the other form.

use std::collections::BTreeSet;

use crate::subject::{self, tally};
use paddockyear_tests::boards::copies::*;
use paddockyear_tests::boards::damage::{breach, breaches, damaged, Forgery, Target};
use paddockyear_tests::boards::*;
use paddockyear_tests::random::Random;
use paddockyear_tests::reference::judge::{judge, Judging};
use paddockyear_tests::reference::receipt::Posted;
use paddockyear_tests::reference::tablet::receipt;
use paddockyear_tests::reference::terms::{sorted, Form, Parameters};
use paddockyear_tests::reference::writer::Secrets;

const SHAPE: Parameters = Parameters::unnumbered(100, 5, 1);

/// The same record with 0C first, numbers in turn, if it starts with 01.
fn twin(record: &[u8]) -> Option<Vec<u8>> {
    let election = ELECTIONS[record.len() % ELECTIONS.len()];
    (record.first() == Some(&0x01)).then(|| numbered(record, election))
}

fn check_receipt(record: &[u8], printed: &[u8]) -> Result<Posted, u8> {
    let answer = subject::check_receipt(record, printed);
    if let Some(twin) = twin(record) {
        assert_eq!(subject::check_receipt(&twin, printed), answer);
    }
    answer
}

fn announced_votes(record: &[u8], out: &mut [u32]) -> Result<(), u8> {
    let mut again = out.to_vec();
    let answer = subject::announced_votes(record, out);
    if let Some(twin) = twin(record) {
        let before = again.clone();
        // What is found before the first opening is found in both.
        let fault = judge(&twin, Judging::Plain).unwrap_err();
        assert!(fault.number == 13 || answer == Err(fault.number));
        assert_eq!(subject::announced_votes(&twin, &mut again), Err(fault.number));
        assert_eq!(again, before);
    }
    answer
}

fn ballot(record: &[u8], j: usize) -> &[u8] {
    let first = if record[0] == 0x0C { 12 } else { 8 };
    &record[first + 197 * j..][..197]
}

#[test]
fn receipts_of_posted_ballots() {
    let board = honest(&mut Random::new(40), SHAPE, BOTH);
    let record = board.record();
    for (j, &id) in board.inputs.ids.iter().enumerate() {
        let printed = receipt(id, ballot(&record, j));
        assert_eq!(check_receipt(&record, &printed), Ok(Posted::AsPrinted));
        for byte in 4..32 {
            let mut other = printed;
            other[byte] ^= 0x10;
            assert_eq!(check_receipt(&record, &other), Ok(Posted::Otherwise));
        }
    }
}

#[test]
fn receipts_of_other_ids() {
    let random = &mut Random::new(41);
    let mut inputs = inputs(random, SHAPE);
    inputs.ids = vec![3, 5, 256, 65_536, u32::MAX - 1];
    let record = board(random, &inputs, BOTH).record();
    for id in [0, 2, 4, 6, 255, 257, 65_537, u32::MAX] {
        let printed = receipt(id, ballot(&record, 0));
        assert_eq!(check_receipt(&record, &printed), Ok(Posted::Not));
    }
}

/// The length first, then the judge's 1 to 5 over all ballots; a match comes after them.
#[test]
fn receipt_refusals() {
    let board = honest(&mut Random::new(42), SHAPE, BOTH);
    let record = board.record();
    let printed = receipt(board.inputs.ids[0], ballot(&record, 0));
    let end = 8 + 197 * 5;
    for length in [0, 31, 33] {
        assert_eq!(check_receipt(&[], &[printed, printed].concat()[..length]), Err(18));
    }
    for length in 0..end {
        assert_eq!(check_receipt(&record[..length], &printed), Err(1));
    }
    assert_eq!(check_receipt(&record[..end], &printed), Ok(Posted::AsPrinted));
    for (place, number) in [(0, 2), (7, 3), (8 + 197 * 4, 2)] {
        let mut record = record.clone();
        record[place] ^= 0x40;
        assert_eq!(check_receipt(&record, &printed), Err(number));
    }
    let mut falling = record.clone();
    falling.copy_within(9 + 197 * 3..13 + 197 * 3, 9 + 197 * 4);
    assert_eq!(check_receipt(&falling, &printed), Err(5));
    let noise = [&record[..end], &[0xFF; 40]].concat();
    assert_eq!(check_receipt(&noise, &printed), Ok(Posted::AsPrinted));
}

/// Every breach of 01 and 02 is met before the receipt's own ballot counts, but for copies; later
/// ones are not.
#[test]
fn receipts_on_damaged_boards() {
    let random = &mut Random::new(44);
    let parameters = Parameters::unnumbered(100, 5, 2);
    let secrets = Secrets::new(&inputs(random, parameters));
    let printed = receipt(secrets.ids[0], ballot(&secrets.part_one(), 0));
    let target = Target { ballot: 3, list: 1, position: 2, rank: 1, opened: 0 };
    let mut met = BTreeSet::new();
    for one in breaches(Form::Unnumbered, Judging::Plain) {
        let mut forgery = Forgery::new(secrets.clone(), random.mask(2));
        let due = breach(&mut forgery, &target, &[one]);
        let record = forgery.record(random, Judging::Plain);
        let found = check_receipt(&record, &printed);
        if one.command <= 0x02 && one.number != 21 {
            assert_eq!(found, Err(due.number), "{:02X} {}", one.command, one.name);
            met.insert(due.number);
        } else {
            assert_eq!(found, Ok(Posted::AsPrinted), "{:02X} {}", one.command, one.name);
        }
        assert_eq!(check_receipt(&record, &printed[1..]), Err(18));
    }
    assert_eq!(met, BTreeSet::from([1, 2, 3, 5]));
}

/// Receipts of the board, with other ids or hashes, and of any bytes, on boards of any shape.
#[test]
fn random_receipts() {
    let random = &mut Random::new(45);
    for _ in 0..200 {
        let parameters = parameters(random, 40, 1);
        let board = honest(random, parameters, NEITHER);
        let record = board.record();
        for (j, &id) in board.inputs.ids.iter().enumerate() {
            let printed = receipt(id, ballot(&record, j));
            assert_eq!(check_receipt(&record, &printed), Ok(Posted::AsPrinted));
            let mut other = printed;
            other[random.index(32)] ^= 1 << random.below(8);
            assert_ne!(check_receipt(&record, &other), Ok(Posted::AsPrinted));
            let another = ballot(&record, random.index(parameters.ballots()));
            let due = another == ballot(&record, j);
            let found = check_receipt(&record, &receipt(id, another));
            assert_eq!(found, Ok(if due { Posted::AsPrinted } else { Posted::Otherwise }));
        }
        let noise = random.bytes(32);
        assert_ne!(check_receipt(&record, &noise), Ok(Posted::AsPrinted));
    }
}

/// Ballots far behind, and the receipts of those that they may be taken for.
#[test]
fn receipts_among_many_ballots() {
    let random = &mut Random::new(46);
    let mut inputs = inputs(random, Parameters::unnumbered(2, 4096, 1));
    inputs.ids = (0..4096).map(|j| j << 20 | j).collect();
    let record = board(random, &inputs, NEITHER).record();
    for j in FAR_PLACES {
        let printed = receipt(inputs.ids[j], ballot(&record, j));
        assert_eq!(check_receipt(&record, &printed), Ok(Posted::AsPrinted));
        let beside = receipt(inputs.ids[j] + 1, ballot(&record, j));
        assert_eq!(check_receipt(&record, &beside), Ok(Posted::Not));
        for other in mistaken(j as u16).into_iter().filter(|&other| other < 4096) {
            let other = receipt(inputs.ids[j], ballot(&record, usize::from(other)));
            assert_eq!(check_receipt(&record, &other), Ok(Posted::Otherwise));
        }
    }
}

/// Receipts are of the command's bytes alone: those of one record are the other's, whatever its
/// number.
#[test]
fn receipts_of_both_forms() {
    let board = honest(&mut Random::new(50), SHAPE, NEITHER);
    let record = board.record();
    for election in ELECTIONS {
        let mut record = numbered(&record, election);
        for (j, &id) in board.inputs.ids.iter().enumerate() {
            let printed = receipt(id, &board.parts[0][8 + 197 * j..][..197]);
            assert_eq!(subject::check_receipt(&record, &printed), Ok(Posted::AsPrinted));
            let mut other = printed;
            other[4] ^= 1;
            assert_eq!(subject::check_receipt(&record, &other), Ok(Posted::Otherwise));
            let beside = receipt(u32::MAX, ballot(&record, j));
            assert_eq!(subject::check_receipt(&record, &beside), Ok(Posted::Not));
        }
        record[9..11].copy_from_slice(&4097u16.to_be_bytes());
        assert_eq!(subject::check_receipt(&record, &[0; 32]), Err(3));
        record[0] = 0x0D;
        assert_eq!(subject::check_receipt(&record, &[0; 32]), Err(2));
        for length in 0..12 {
            record[0] = 0x0C;
            assert_eq!(subject::check_receipt(&record[..length], &[0; 32]), Err(1));
        }
    }
}

/// Boards with copied ballots answer as printed for each of them, whatever the judge says; faults
/// of other ballots are found as ever.
#[test]
fn receipts_of_copied_ballots() {
    let random = &mut Random::new(51);
    for (earlier, later) in [(0, 1), (0, 4), (1, 3), (3, 4)] {
        let copied = Copied::none(inputs(random, SHAPE)).and_ballot(earlier, later);
        let (record, inputs) = (copied.posted(random, Judging::Plain), copied.inputs);
        for (j, &id) in inputs.ids.iter().enumerate() {
            let printed = receipt(id, ballot(&record, j));
            assert_eq!(check_receipt(&record, &printed), Ok(Posted::AsPrinted));
            let beside = receipt(u32::MAX, ballot(&record, j));
            assert_eq!(check_receipt(&record, &beside), Ok(Posted::Not));
            assert_eq!(check_receipt(&record[..8 + 197 * j], &printed), Err(1));
            let mut otherwise = record.clone();
            otherwise[8 + 197 * j] ^= 0x40;
            assert_eq!(check_receipt(&otherwise, &printed), Err(2));
        }
        for (id, other) in [(earlier, later), (later, earlier)] {
            let printed = receipt(inputs.ids[id], ballot(&record, other));
            assert_eq!(check_receipt(&record, &printed), Ok(Posted::Otherwise));
        }
    }
}

/// A falling id behind a copy is found, in the copying ballot and in others; and so is one before.
#[test]
fn receipts_of_copies_and_ids_that_fall() {
    let random = &mut Random::new(52);
    let mut ballots = commitments(random, 5);
    (ballots[1][2], ballots[3]) = (ballots[0][4], ballots[2]);
    let record = ballots_alone(Form::Unnumbered, &ballots);
    let printed = receipt(0, ballot(&record, 0));
    assert_eq!(check_receipt(&record, &printed), Ok(Posted::AsPrinted));
    for j in 1..5 {
        let mut falls = record.clone();
        falls[9 + 197 * j..][..4].fill(0);
        assert_eq!(check_receipt(&falls, &printed), Err(5), "ballot {j}");
    }
}

#[test]
fn announced() {
    FORMS.iter().for_each(|&form| check_announced(Parameters { form, ..SHAPE }));
}

fn check_announced(shape: Parameters) {
    let board = honest(&mut Random::new(43), shape, NEITHER);
    let mut record = board.record();
    let mut out = [77; 6];
    assert_eq!(announced_votes(&record, &mut out[..5]), Ok(()));
    assert_eq!(out[..5], sorted(&board.inputs.votes));
    let before = out;
    assert_eq!(announced_votes(&record, &mut out), Err(18));
    assert_eq!(announced_votes(&record, &mut out[..4]), Err(18));
    record.push(0);
    assert_eq!(announced_votes(&record, &mut out[..4]), Err(17));
    assert_eq!(out, before);
}

#[test]
fn announced_by_boards_of_any_shape() {
    let random = &mut Random::new(47);
    for round in 0..200 {
        let parameters = parameters(random, 40, 4);
        let board = honest(random, parameters, ALL_DRAWS[round % 4]);
        let (record, n) = (board.record(), parameters.ballots());
        for length in [n, n - 1, n + 1, 0] {
            let noise = random.words(length);
            let mut out = noise.clone();
            let (answer, due) = match length == n {
                true => (Ok(()), sorted(&board.inputs.votes)),
                false => (Err(18), noise),
            };
            assert_eq!(announced_votes(&record, &mut out), answer);
            assert_eq!(out, due);
        }
    }
}

#[test]
fn announced_by_many_ballots() {
    let random = &mut Random::new(85);
    for form in FORMS {
        let board = honest(random, Parameters { form, modulus: u32::MAX, n: 4096, m: 1 }, NEITHER);
        let record = board.record();
        let mut out = vec![77; 4097];
        for length in [1024, 4095, 4097] {
            assert_eq!(announced_votes(&record, &mut out[..length]), Err(18));
        }
        assert_eq!(out, [77; 4097]);
        assert_eq!(announced_votes(&record, &mut out[..4096]), Ok(()));
        assert_eq!(out[..4096], sorted(&board.inputs.votes));
    }
}

/// A board with a copied ballot announces nothing; 21 comes before 18.
#[test]
fn announced_by_boards_with_copies() {
    let random = &mut Random::new(53);
    for (form, (from, slot)) in
        FORMS.into_iter().flat_map(|f| pairs_of_places().map(move |p| (f, p)))
    {
        let shape = Parameters { form, ..SHAPE };
        let (earlier, ballot) = random.pick(&[(0, 1), (0, 4), (2, 3), (3, 4)]);
        let copied = Copied::none(inputs(random, shape)).and((earlier, from), (ballot, slot));
        let record = copied.posted(random, Judging::Plain);
        for length in [5, 4, 6, 0] {
            let mut out = vec![77; length];
            assert_eq!(announced_votes(&record, &mut out), Err(21));
            assert_eq!(out, vec![77; length]);
        }
    }
    for form in FORMS {
        let inside = Copied::none(inputs(random, Parameters { form, ..SHAPE })).and_inside(2, 3);
        let openings = inside.openings();
        let record = record_of(random, &openings, Judging::Plain);
        let mut out = [77; 5];
        assert_eq!(announced_votes(&record, &mut out), Ok(()));
        assert_eq!(out[..], sorted(&openings.votes));
    }
}

/// The plain judge's number comes before 18.
#[test]
fn announced_by_damaged_boards() {
    let random = &mut Random::new(48);
    let mut met = BTreeSet::new();
    for _ in 0..1_000 {
        let (record, due) = damaged(random, 6, 2, Judging::Plain);
        let length = random.index(8);
        let noise = random.words(length);
        let mut out = noise.clone();
        assert_eq!(announced_votes(&record, &mut out), Err(due.number));
        assert_eq!(out, noise);
        met.insert(due.number);
    }
    assert!((1..=17).chain([21]).filter(|number| ![8, 12].contains(number)).eq(met));
}

#[test]
fn tallies() {
    let run = |votes: &[u32], lengths: [usize; 2]| {
        let (mut values, mut counts) = (vec![77; lengths[0]], vec![77; lengths[1]]);
        (tally(votes, &mut values, &mut counts), values, counts)
    };
    assert_eq!(run(&[2, 5, 5], [3, 3]), (Ok(2), vec![2, 5, 77], vec![1, 2, 77]));
    assert_eq!(run(&[], [0, 0]), (Ok(0), vec![], vec![]));
    assert_eq!(run(&[0, 0, 0], [3, 3]), (Ok(1), vec![0, 77, 77], vec![3, 77, 77]));
    assert_eq!(run(&[5, 2], [2, 3]).0, Err(18));
    assert_eq!(run(&[5, 2], [1, 2]).0, Err(18));
    assert_eq!(run(&[5, 5, 2], [3, 3]), (Err(15), vec![77; 3], vec![77; 3]));
}

/// Votes of any length, rising or not, into slices of any length.
#[test]
fn random_tallies() {
    let random = &mut Random::new(49);
    let mut answers = BTreeSet::new();
    for _ in 0..3_000 {
        let (length, bound) = (random.index(30), random.pick(&[1, 2, 5, 1_000, u32::MAX]));
        let mut votes: Vec<u32> = (0..length).map(|_| random.number(bound)).collect();
        if random.below(4) > 0 {
            votes = sorted(&votes);
        }
        let lengths: [usize; 2] =
            std::array::from_fn(|_| length + random.pick(&[0, 0, 0, 0, 0, 0, 1, 40]));
        let noise = (random.words(lengths[0]), random.long_words(lengths[1]));
        let (mut values, mut counts) = noise.clone();
        let answer = tally(&votes, &mut values, &mut counts);
        let pairs = answer.unwrap_or(0);
        assert_eq!(values[pairs..], noise.0[pairs..]);
        assert_eq!(counts[pairs..], noise.1[pairs..]);
        assert!(answer.is_err() || counts[..pairs].iter().sum::<u64>() == length as u64);
        assert!(values[..pairs].windows(2).all(|pair| pair[0] < pair[1]));
        answers.insert(answer.err());
    }
    assert_eq!(answers, BTreeSet::from([None, Some(15), Some(18)]));
}

/// A fall at any place is found; so is a slice that is short by one.
#[test]
fn refused_tallies() {
    let random = &mut Random::new(59);
    for fall in 1..40 {
        let mut votes: Vec<u32> = (10..50).collect();
        votes[fall] = votes[fall - 1] - 1;
        let noise = (random.words(40), random.long_words(40));
        let (mut values, mut counts) = noise.clone();
        assert_eq!(tally(&votes, &mut values, &mut counts), Err(15));
        assert_eq!(tally(&votes, &mut values[1..], &mut counts), Err(18));
        assert_eq!(tally(&votes, &mut values, &mut counts[..39]), Err(18));
        assert_eq!((values, counts), noise);
    }
}

#[test]
fn tallies_of_many_votes() {
    let votes: Vec<u32> = (0..4096).map(|j| j / 3 * 0x0010_0001).collect();
    let rising: Vec<u32> = (0..4096).collect();
    for votes in [&votes[..1024], &votes, &[u32::MAX; 4096], &rising] {
        let (mut values, mut counts) = (vec![77; votes.len()], vec![78; votes.len()]);
        let pairs = tally(votes, &mut values, &mut counts).unwrap();
        let again: Vec<u32> =
            (0..pairs).flat_map(|at| vec![values[at]; counts[at] as usize]).collect();
        assert_eq!(again, votes);
    }
}
