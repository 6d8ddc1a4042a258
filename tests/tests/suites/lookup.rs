//! What the receipt lookup answers: what the receipt check does, but for what stands behind the
//! ballot at which it stops, the first whose id is the one sought or larger. Whatever record starts
//! with 01, the same with 0C gets the same answer.

use std::cmp::Ordering;
use std::collections::BTreeSet;

use crate::subject;
use paddockyear_tests::boards::copies::{ballots_alone, commitments};
use paddockyear_tests::boards::damage::{damaged_by, flipped};
use paddockyear_tests::boards::*;
use paddockyear_tests::random::Random;
use paddockyear_tests::reference::judge::Judging;
use paddockyear_tests::reference::receipt::Posted;
use paddockyear_tests::reference::tablet::receipt;
use paddockyear_tests::reference::terms::{Form, Parameters, COPIES_STAND};

/// Ids at which one more byte counts, or the highest bit.
const IDS: [u32; 6] = [3, 255, 256, 65_536, 0x8000_0000, u32::MAX - 1];

/// What this entry answers, to a record that starts with 01 also with 0C in its place.
fn in_both_forms(
    entry: impl Fn(&[u8], &[u8]) -> Result<Posted, u8>,
    record: &[u8],
    printed: &[u8],
) -> Result<Posted, u8> {
    let answer = entry(record, printed);
    if record.first() == Some(&0x01) {
        let election = ELECTIONS[record.len() % ELECTIONS.len()];
        assert_eq!(entry(&numbered(record, election), printed), answer);
    }
    answer
}

fn look_up(record: &[u8], printed: &[u8]) -> Result<Posted, u8> {
    in_both_forms(subject::look_up, record, printed)
}

fn check_receipt(record: &[u8], printed: &[u8]) -> Result<Posted, u8> {
    in_both_forms(subject::check_receipt, record, printed)
}

fn place(j: usize) -> usize {
    8 + 197 * j
}

fn ballot(record: &[u8], j: usize) -> &[u8] {
    let longer = if record[0] == 0x0C { 4 } else { 0 };
    &record[longer + place(j)..longer + place(j + 1)]
}

/// Parameters, then ballots with these ids and any commitments, and nothing behind them.
fn posted(random: &mut Random, ids: &[u32]) -> Vec<u8> {
    let mut record = vec![0x01, 0, 0, 0, 100];
    record.extend((ids.len() as u16).to_be_bytes());
    record.push(1);
    for id in ids {
        record.push(0x02);
        record.extend(id.to_be_bytes());
        record.extend(random.bytes(192));
    }
    record
}

/// The record of an honest board with these ids.
fn whole(random: &mut Random, ids: &[u32]) -> Vec<u8> {
    let mut inputs = inputs(random, Parameters::unnumbered(100, ids.len() as u32, 1));
    inputs.ids = ids.to_vec();
    board(random, &inputs, NEITHER).record()
}

/// Each id, the numbers beside it, and the ends of their range.
fn around(ids: &[u32]) -> BTreeSet<u32> {
    let near = ids.iter().flat_map(|&id| [id.saturating_sub(1), id, id.saturating_add(1)]);
    near.chain([0, u32::MAX]).collect()
}

/// The ballot at which the lookup stops.
fn stop(ids: &[u32], sought: u32) -> Option<usize> {
    ids.iter().position(|&id| id >= sought)
}

/// The place behind all that the lookup reads.
fn end(ids: &[u32], sought: u32) -> usize {
    place(stop(ids, sought).map_or(ids.len(), |j| j + 1))
}

/// Two receipts with this id. The first has the hash of the ballot at which the lookup stops, or of
/// the last one; the second has another.
fn receipts(record: &[u8], ids: &[u32], sought: u32) -> [[u8; 32]; 2] {
    let right = receipt(sought, ballot(record, stop(ids, sought).unwrap_or(ids.len() - 1)));
    let mut wrong = right;
    wrong[31] ^= 1;
    [right, wrong]
}

/// The answers to these two, where nothing is at fault.
fn answers(ids: &[u32], sought: u32) -> [Posted; 2] {
    match ids.contains(&sought) {
        true => [Posted::AsPrinted, Posted::Otherwise],
        false => [Posted::Not; 2],
    }
}

#[test]
fn below_between_and_above() {
    let record = posted(&mut Random::new(250), &[10, 20, 30]);
    let found = |id, hashed| look_up(&record, &receipt(id, ballot(&record, hashed)));
    for (j, id) in [10, 20, 30].into_iter().enumerate() {
        for hashed in 0..3 {
            let due = if hashed == j { Posted::AsPrinted } else { Posted::Otherwise };
            assert_eq!(found(id, hashed), Ok(due), "{id}");
        }
    }
    for id in [0, 9, 11, 15, 19, 21, 29, 31, 1_000, u32::MAX] {
        for hashed in 0..3 {
            assert_eq!(found(id, hashed), Ok(Posted::Not), "{id}");
        }
    }
}

/// Of ballots alone and of whole boards; the check agrees.
#[test]
fn ids_at_their_limits() {
    let random = &mut Random::new(251);
    let highest = [u32::MAX - 2, u32::MAX - 1, u32::MAX];
    for ids in [&IDS[..], &[0], &[7], &[u32::MAX], &[0, 1, 2], &[0, u32::MAX], &highest] {
        for record in [posted(random, ids), whole(random, ids)] {
            for sought in around(ids) {
                let due = answers(ids, sought).map(Ok);
                let printed = receipts(&record, ids, sought);
                assert_eq!(printed.map(|one| look_up(&record, &one)), due, "{ids:?} {sought}");
                assert_eq!(printed.map(|one| check_receipt(&record, &one)), due);
            }
        }
    }
}

#[test]
fn bytes_of_the_receipt() {
    let record = posted(&mut Random::new(252), &IDS);
    for (j, sought) in IDS.into_iter().enumerate() {
        let printed = receipt(sought, ballot(&record, j));
        assert_eq!(look_up(&record, &printed), Ok(Posted::AsPrinted));
        for bit in 0..8 * 32 {
            let mut other = printed;
            other[bit / 8] ^= 1 << (bit % 8);
            let id = u32::from_be_bytes(other[..4].try_into().unwrap());
            let due = if IDS.contains(&id) { Posted::Otherwise } else { Posted::Not };
            assert_eq!(look_up(&record, &other), Ok(due), "{sought}, bit {bit}");
        }
    }
}

/// What is due of ballot j's receipt where a byte of one ballot is changed; none where that may
/// move the stop.
fn after_change(j: usize, changed: usize, byte: usize) -> Option<Result<Posted, u8>> {
    match (changed.cmp(&j), byte) {
        (Ordering::Greater, _) => Some(Ok(Posted::AsPrinted)),
        (_, 0) => Some(Err(2)),
        (Ordering::Less, 1..=4) => None,
        (Ordering::Less, _) => Some(Ok(Posted::AsPrinted)),
        (Ordering::Equal, 1..=4) => Some(Ok(Posted::Not)),
        (Ordering::Equal, _) => Some(Ok(Posted::Otherwise)),
    }
}

#[test]
fn bytes_of_the_ballots() {
    let mut record = posted(&mut Random::new(263), &IDS);
    for (j, sought) in IDS.into_iter().enumerate() {
        let printed = receipt(sought, ballot(&record, j));
        for (changed, byte) in (0..IDS.len()).flat_map(|j| (0..197).map(move |byte| (j, byte))) {
            let Some(due) = after_change(j, changed, byte) else { continue };
            record[place(changed) + byte] ^= 0x10;
            assert_eq!(look_up(&record, &printed), due, "{sought}, {changed}, {byte}");
            record[place(changed) + byte] ^= 0x10;
        }
    }
}

/// 1 up to the last byte of the ballot at which the lookup stops, and from there on the answer.
#[test]
fn every_cut() {
    let ids = [0, 300, 70_000];
    let record = whole(&mut Random::new(253), &ids);
    for sought in around(&ids) {
        let (printed, due) = (receipts(&record, &ids, sought), answers(&ids, sought).map(Ok));
        for length in 0..=record.len() {
            let due = if length < end(&ids, sought) { [Err(1); 2] } else { due };
            let found = printed.map(|one| look_up(&record[..length], &one));
            assert_eq!(found, due, "{sought}, {length} bytes");
        }
    }
}

/// Any byte behind the ballot at which the lookup stops may be another one, and so may all.
#[test]
fn bytes_behind() {
    let random = &mut Random::new(254);
    let ids = [0, 300, 70_000];
    let mut record = whole(random, &ids);
    for sought in around(&ids) {
        let (printed, due) = (receipts(&record, &ids, sought), answers(&ids, sought).map(Ok));
        let end = end(&ids, sought);
        for place in end..record.len() {
            let bits = 1 << random.below(8);
            record[place] ^= bits;
            assert_eq!(printed.map(|one| look_up(&record, &one)), due, "{sought}, byte {place}");
            record[place] ^= bits;
        }
        for round in 0..300 {
            let length = random.index(800);
            let behind = match round {
                0..=255 => vec![round as u8; length],
                _ => random.bytes(length),
            };
            let record = [&record[..end], &behind].concat();
            assert_eq!(printed.map(|one| look_up(&record, &one)), due, "{sought}");
        }
    }
}

/// One way of breaking a rule in the command that starts at a place.
#[derive(Clone, Copy)]
struct Damage {
    place: usize,
    number: u8,
    change: fn(&mut Vec<u8>, usize),
}

type Row = (u8, fn(&mut Vec<u8>, usize));

/// In the order in which they are met.
const OF_PARAMETERS: [Row; 11] = [
    (1, |record, at| record.truncate(at)),
    (2, |record, at| record[at] = 0x02),
    (1, |record, at| record.truncate(at + 1)),
    (1, |record, at| record.truncate(at + 7)),
    (3, |record, at| record[at + 1..at + 5].copy_from_slice(&[0, 0, 0, 0])),
    (3, |record, at| record[at + 1..at + 5].copy_from_slice(&[0, 0, 0, 1])),
    (3, |record, at| record[at + 5..at + 7].copy_from_slice(&[0, 0])),
    (3, |record, at| record[at + 5..at + 7].copy_from_slice(&[16, 1])),
    (3, |record, at| record[at + 7] = 0),
    (3, |record, at| record[at + 7] = 13),
    (3, |record, at| record[at + 7] = 255),
];

/// The same of a ballot; those of 5 need one before it.
const OF_BALLOT: [Row; 8] = [
    (1, |record, at| record.truncate(at)),
    (2, |record, at| record[at] = 0x01),
    (2, |record, at| record[at] = 0x03),
    (1, |record, at| record.truncate(at + 1)),
    (1, |record, at| record.truncate(at + 5)),
    (1, |record, at| record.truncate(at + 196)),
    (5, |record, at| record.copy_within(at - 196..at - 192, at + 1)),
    (5, |record, at| record[at + 1..at + 5].fill(0)),
];

/// Every damage of parameters and ballots, in the order in which they are met.
fn damages(ballots: usize) -> Vec<Damage> {
    let of_command = |place, rows: &[Row]| {
        let damage = |&(number, change): &Row| Damage { place, number, change };
        rows.iter().map(damage).collect::<Vec<Damage>>()
    };
    let mut all = of_command(0, &OF_PARAMETERS);
    all.extend((0..ballots).flat_map(|j| of_command(place(j), &OF_BALLOT)));
    all.retain(|damage| damage.number != 5 || damage.place > place(0));
    all
}

/// The earlier damage goes last, so that it stands where two change the same bytes.
fn with_both(record: &[u8], first: &Damage, second: &Damage) -> Vec<u8> {
    let mut record = record.to_vec();
    for damage in [second, first] {
        (damage.change)(&mut record, damage.place);
    }
    record
}

/// Each fault alone and with each later one: the first decides, if it stands before or in the
/// ballot at which the lookup stops; the check's number is the same.
#[test]
fn one_fault_or_two() {
    let ids = &IDS[1..5];
    let sound = posted(&mut Random::new(255), ids);
    let all = damages(ids.len());
    let mut met = BTreeSet::new();
    for (k, first) in all.iter().enumerate() {
        for second in &all[k..] {
            let record = with_both(&sound, first, second);
            for sought in around(ids) {
                let printed = receipts(&sound, ids, sought);
                let stop = place(stop(ids, sought).unwrap_or(ids.len()));
                let due = match first.place <= stop {
                    true => [Err(first.number); 2],
                    false => answers(ids, sought).map(Ok),
                };
                assert_eq!(printed.map(|one| look_up(&record, &one)), due, "{sought}");
                assert_eq!(check_receipt(&record, &printed[0]), Err(first.number));
                met.insert((first.place.cmp(&stop), first.number));
            }
        }
    }
    let before = [1, 2, 3, 5].map(|number| (Ordering::Less, number));
    let inside = [1, 2, 5].map(|number| (Ordering::Equal, number));
    let behind = [1, 2, 5].map(|number| (Ordering::Greater, number));
    assert!(met.into_iter().eq(before.into_iter().chain(inside).chain(behind)));
}

/// A ballot's rules come before the question of its id: it is refused though its id is the one
/// sought or larger. (An id that breaks 5 is neither, or the lookup stopped before.)
#[test]
fn faulty_ballot_at_the_stop() {
    let sound = posted(&mut Random::new(256), &[10, 20, 30]);
    for sought in [11, 15, 20] {
        let printed = receipt(sought, ballot(&sound, 1));
        for byte in (0..=255).filter(|&byte| byte != 0x02) {
            let mut record = sound.clone();
            record[place(1)] = byte;
            assert_eq!(look_up(&record, &printed), Err(2), "{sought}, byte {byte}");
        }
        for left in 0..197 {
            assert_eq!(look_up(&sound[..place(1) + left], &printed), Err(1), "{sought}, {left}");
        }
        for id in [0u32, 9, 10] {
            let mut record = sound.clone();
            record[place(1) + 1..][..4].copy_from_slice(&id.to_be_bytes());
            assert_eq!(look_up(&record, &printed), Err(5), "{sought}, id {id}");
        }
    }
}

/// Of ids that do not rise, those behind the first that is large enough are not looked at.
#[test]
fn ids_that_do_not_rise() {
    let random = &mut Random::new(257);
    let found = |record: &[u8], id, hashed| {
        let printed = receipt(id, ballot(record, hashed));
        assert_eq!(check_receipt(record, &printed), Err(5));
        look_up(record, &printed)
    };
    let twice = posted(random, &[10, 20, 20, 30]);
    assert_eq!(found(&twice, 15, 1), Ok(Posted::Not));
    assert_eq!(found(&twice, 20, 1), Ok(Posted::AsPrinted));
    assert_eq!(found(&twice, 20, 2), Ok(Posted::Otherwise));
    assert_eq!(found(&twice, 21, 2), Err(5));
    assert_eq!(found(&twice, 30, 3), Err(5));
    let falling = posted(random, &[10, 30, 20, 40]);
    assert_eq!(found(&falling, 20, 2), Ok(Posted::Not));
    assert_eq!(found(&falling, 30, 1), Ok(Posted::AsPrinted));
    assert_eq!(found(&falling, 31, 3), Err(5));
    assert_eq!(found(&falling, 40, 3), Err(5));
}

/// 18 comes before every fault of the record.
#[test]
fn lengths_of_the_receipt() {
    let sound = posted(&mut Random::new(258), &IDS);
    let printed = [receipt(IDS[0], ballot(&sound, 0)); 2].concat();
    let damages = damages(IDS.len());
    let damaged = damages.iter().map(|damage| with_both(&sound, damage, damage));
    for record in damaged.chain([vec![], sound.clone(), vec![0xFF; 1_000]]) {
        for length in (0..=64).filter(|&length| length != 32) {
            assert_eq!(look_up(&record, &printed[..length]), Err(18));
        }
    }
    assert_eq!(look_up(&sound, &printed[..32]), Ok(Posted::AsPrinted));
}

/// Behind n ballots there are none, even where it looks so; where n is larger, one is missing.
#[test]
fn ballots_that_n_counts() {
    let ids = [10, 20, 30];
    let mut record = posted(&mut Random::new(264), &ids);
    for n in [1, 2, 3, 4, 1024, 1025, 4096] {
        record[5..7].copy_from_slice(&(n as u16).to_be_bytes());
        for sought in around(&ids) {
            let due = match stop(&ids, sought) {
                Some(j) if j < n => answers(&ids, sought).map(Ok),
                _ if n <= ids.len() => [Ok(Posted::Not); 2],
                _ => [Err(1); 2],
            };
            let printed = receipts(&record, &ids, sought);
            assert_eq!(printed.map(|one| look_up(&record, &one)), due, "n = {n}, {sought}");
        }
    }
}

/// Around the limit of n, in a record that stops behind it.
#[test]
fn limit_of_n() {
    for n in [0, 1, 1024, 1025, 4095, 4096, 4097, 5120, u16::MAX] {
        let record = first_command(Form::Unnumbered, n);
        let due = Err(if (1..=4096).contains(&n) { 1 } else { 3 });
        assert_eq!(look_up(&record, &[0; 32]), due, "n = {n}");
        assert_eq!(check_receipt(&record, &[0; 32]), due, "n = {n}");
    }
}

/// As many ballots as there may be, of which those up to the stop are enough.
#[test]
fn lookups_among_many_ballots() {
    let ids: Vec<u32> = (0..4096).map(|j| 5 + j * 0x0010_0001).collect();
    let mut record = posted(&mut Random::new(259), &ids);
    for j in FAR_PLACES {
        for sought in around(&ids[j..=j]) {
            let (printed, end) = (receipts(&record, &ids, sought), end(&ids, sought));
            let due = answers(&ids, sought).map(Ok);
            for record in [&record[..], &record[..end]] {
                assert_eq!(printed.map(|one| look_up(record, &one)), due, "{sought}");
            }
            assert_eq!(printed.map(|one| look_up(&record[..end - 1], &one)), [Err(1); 2]);
        }
        for other in mistaken(j as u16).into_iter().filter(|&other| other < 4096) {
            let other = receipt(ids[j], ballot(&record, usize::from(other)));
            assert_eq!(look_up(&record, &other), Ok(Posted::Otherwise), "ballot {j}");
        }
    }
    let printed = receipt(ids[0], ballot(&record, 0));
    record[5..7].copy_from_slice(&4097u16.to_be_bytes());
    assert_eq!(look_up(&record, &printed), Err(3));
}

/// Boards of any shape, whole and as far as their ballots; receipts of theirs and of any bytes.
#[test]
fn as_the_check_answers() {
    let random = &mut Random::new(260);
    for _ in 0..100 {
        let parameters = parameters(random, 40, 2);
        let board = honest(random, parameters, NEITHER);
        let (record, ids) = (board.record(), &board.inputs.ids);
        let ballots = &record[..Layout::new(&parameters).ballot(ids.len())];
        for sought in around(ids) {
            let [right, wrong] = receipts(&record, ids, sought);
            let other = receipt(sought, ballot(&record, random.index(ids.len())));
            let noise = random.bytes(32);
            for printed in [&right[..], &wrong, &other, &flipped(random, &right), &noise] {
                let due = check_receipt(&record, printed);
                assert!(due.is_ok());
                assert_eq!(look_up(&record, printed), due);
                assert_eq!(look_up(ballots, printed), due);
            }
        }
    }
}

/// The ids of the ballots that end before a place, and whether these are all.
fn ids_before(record: &[u8], place: usize) -> (Vec<u32>, bool) {
    let first = if record.first() == Some(&0x0C) { 12 } else { 8 };
    let Some(ballots) = record[..place].get(first..) else { return (Vec::new(), false) };
    let n = usize::from(u16::from_be_bytes([record[first - 3], record[first - 2]]));
    let id = |ballot: &[u8]| u32::from_be_bytes(ballot[1..5].try_into().unwrap());
    let ids: Vec<u32> = ballots.chunks_exact(197).take(n).map(id).collect();
    let all = ids.len() == n;
    (ids, all)
}

/// Whole boards with one fault or two in any command, but for copies: the check's number, unless
/// the lookup stops before the fault.
#[test]
fn as_the_check_refuses() {
    let random = &mut Random::new(261);
    let (mut refused, mut passed) = (BTreeSet::new(), BTreeSet::new());
    for _ in 0..2_000 {
        let (record, fault) = damaged_by(COPIES_STAND, random, (6, 2), Judging::Plain);
        let (ids, all) = ids_before(&record, fault.place);
        for sought in around(&ids) {
            let hashed = stop(&ids, sought).map_or(&record[..], |j| ballot(&record, j));
            let printed = receipt(sought, hashed);
            let (found, checked) = (look_up(&record, &printed), check_receipt(&record, &printed));
            let met = !all && stop(&ids, sought).is_none();
            let due = if met { Err(fault.number) } else { Ok(answers(&ids, sought)[0]) };
            assert_eq!(found, due, "{sought}, {fault:?}");
            assert_eq!(checked, if all { due } else { Err(fault.number) });
            let numbers = if met { &mut refused } else { &mut passed };
            numbers.extend(checked.err());
        }
    }
    assert_eq!(refused, BTreeSet::from([1, 2, 3, 5]));
    assert_eq!(passed, BTreeSet::from([1, 2, 5]));
}

/// Boards with copied ballots answer as printed for each of them, as the check does; copies before
/// the stop and at it are passed over.
#[test]
fn lookups_of_copied_ballots() {
    let random = &mut Random::new(267);
    for (earlier, later) in [(0, 1), (0, 5), (2, 3), (4, 5)] {
        let mut ballots = commitments(random, IDS.len());
        ballots[later] = ballots[earlier];
        let copied = ballots_alone(Form::Unnumbered, &ballots);
        let mut record = posted(random, &IDS);
        for (j, id) in IDS.into_iter().enumerate() {
            let six = place(j) + 5..place(j + 1);
            record[six.clone()].copy_from_slice(&copied[six]);
            assert_eq!(record[place(j) + 1..][..4], id.to_be_bytes());
        }
        for sought in around(&IDS) {
            let (printed, due) = (receipts(&record, &IDS, sought), answers(&IDS, sought).map(Ok));
            assert_eq!(printed.map(|one| look_up(&record, &one)), due, "{sought}");
            assert_eq!(printed.map(|one| check_receipt(&record, &one)), due, "{sought}");
            let end = end(&IDS, sought);
            assert_eq!(printed.map(|one| look_up(&record[..end], &one)), due, "{sought}");
            assert_eq!(printed.map(|one| look_up(&record[..end - 1], &one)), [Err(1); 2]);
        }
        let exchanged = receipt(IDS[later], ballot(&record, earlier));
        assert_eq!(look_up(&record, &exchanged), Ok(Posted::Otherwise));
    }
}

/// The lookup is the check of a record that ends, by its n too, with the ballot at which the lookup
/// stops. Ids rise or not, and some records are cut or have a command byte changed.
#[test]
fn as_the_check_of_fewer_ballots() {
    let random = &mut Random::new(262);
    let mut met = BTreeSet::new();
    for round in 0..3_000 {
        let n = 1 + random.index(6);
        let mut ids: Vec<u32> = (0..n).map(|_| random.number(12)).collect();
        if round % 2 == 0 {
            ids.sort_unstable();
        }
        let mut record = posted(random, &ids);
        match random.below(4) {
            0 => record[place(random.index(n))] = random.pick(&[0x01, 0x03]),
            1 => record.truncate(8 + random.index(197 * n)),
            _ => (),
        }
        let whole = (record.len() - 8) / 197;
        for sought in 0..=12 {
            let stop = stop(&ids[..whole], sought);
            let mut fewer = record.clone();
            if let Some(j) = stop {
                fewer.truncate(place(j + 1));
                fewer[5..7].copy_from_slice(&(j as u16 + 1).to_be_bytes());
            }
            let hashed = stop.map_or(&record[..], |j| ballot(&record, j));
            let printed = receipt(sought, hashed);
            let found = look_up(&record, &printed);
            assert_eq!(found, check_receipt(&fewer, &printed), "{ids:?} {sought}");
            met.insert((stop.is_some(), found.err()));
        }
    }
    let whole = [None, Some(2), Some(5)].map(|number| (true, number));
    let not_found = [None, Some(1), Some(2), Some(5)].map(|number| (false, number));
    assert!(met.into_iter().eq(not_found.into_iter().chain(whole)));
}

/// 0C where a ballot is due, and each other byte in the place of the first command's.
#[test]
fn first_bytes() {
    let sound = posted(&mut Random::new(265), &[10, 20, 30]);
    let sound = numbered(&sound, 0x0202_0202);
    let printed = receipt(20, ballot(&sound, 1));
    assert_eq!(subject::look_up(&sound, &printed), Ok(Posted::AsPrinted));
    for byte in (0..=255).filter(|byte| ![0x01, 0x0C].contains(byte)) {
        let record = [&[byte][..], &sound[1..]].concat();
        assert_eq!(subject::look_up(&record, &printed), Err(2), "{byte}");
        assert_eq!(subject::check_receipt(&record, &printed), Err(2), "{byte}");
    }
    for j in 0..2 {
        for byte in [0x01, 0x0C] {
            let mut record = sound.clone();
            record[12 + 197 * j] = byte;
            assert_eq!(subject::look_up(&record, &printed), Err(2));
            assert_eq!(subject::check_receipt(&record, &printed), Err(2));
        }
    }
}

/// 1 inside the first command of a numbered election, and behind it up to the ballot sought.
#[test]
fn cuts_of_a_numbered_election() {
    let sound = numbered(&posted(&mut Random::new(266), &[10, 20, 30]), u32::MAX);
    let printed = receipt(20, ballot(&sound, 1));
    for length in 0..sound.len() {
        let due = if length < 12 + 2 * 197 { Err(1) } else { Ok(Posted::AsPrinted) };
        assert_eq!(subject::look_up(&sound[..length], &printed), due, "{length}");
        assert_eq!(subject::check_receipt(&sound[..length], &printed), Err(1), "{length}");
    }
}
