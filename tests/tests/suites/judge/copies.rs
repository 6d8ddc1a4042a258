//! Rule 21: a ballot with a commitment of an earlier ballot, at whichever places. Whole boards are
//! proofs but for their copies, or but for those of them that are opened; of others the record ends
//! behind the ballots, where 1 is due.

use std::collections::BTreeSet;

use super::verdict;
use crate::subject::judge;
use paddockyear_tests::boards::copies::*;
use paddockyear_tests::boards::damage::Forgery;
use paddockyear_tests::boards::*;
use paddockyear_tests::random::Random;
use paddockyear_tests::reference::judge::{judge_by, Fault, Judging, JUDGINGS};
use paddockyear_tests::reference::terms::{sorted, Commitment, Form, Parameters, COPIES_STAND};
use paddockyear_tests::reference::writer::Secrets;

const M: u32 = 100;

/// Every form with every judging.
fn ways() -> impl Iterator<Item = (Form, Judging)> {
    FORMS.into_iter().flat_map(|form| JUDGINGS.map(|judging| (form, judging)))
}

fn honest(random: &mut Random, n: u32) -> Copied {
    Copied::none(inputs(random, Parameters::unnumbered(M, n, 1)))
}

fn in_form(copied: &Copied, form: Form) -> Copied {
    let mut copied = copied.clone();
    copied.inputs.parameters.form = form;
    copied
}

/// The board is at fault at this ballot, or where there is none as it was while copies stood.
#[track_caller]
fn check_record(
    copied: &Copied,
    record: &[u8],
    judging: Judging,
    stood: Result<Vec<u32>, Fault>,
    ballot: Option<usize>,
) {
    let parameters = copied.inputs.parameters;
    let place = |j| Layout::new(&parameters).ballot(j);
    let found = judge_by(COPIES_STAND, record, judging);
    assert_eq!(found, stood, "{:?} {judging:?}", parameters.form);
    let due = match ballot {
        Some(j) => Err(Fault { number: 21, place: place(j) }),
        None => stood,
    };
    assert_eq!(judge(record, judging), due, "{:?} {judging:?}", parameters.form);
}

/// Boards with these copies, of openings and as posted: at fault at this ballot, or accepted if
/// there is none; while copies stood, what is not opened wrongly was. With 0C equal openings stand.
#[track_caller]
fn check(random: &mut Random, copied: &Copied, ballot: Option<usize>) {
    for (form, judging) in ways() {
        let copied = in_form(copied, form);
        let openings = copied.openings();
        let record = record_of(random, &openings, judging);
        let equal = if form == Form::Unnumbered { ballot } else { None };
        check_record(&copied, &record, judging, Ok(sorted(&openings.votes)), equal);
        let record = copied.posted(random, judging);
        check_record(&copied, &record, judging, copied.found_posted(&record), ballot);
    }
}

/// Ballots with these commitments and nothing behind them: 21 at this ballot, else 1 behind all.
#[track_caller]
fn check_alone(ballots: &[[Commitment; 6]], ballot: Option<usize>) {
    for (form, judging) in ways() {
        let place = |j| form.width() + 197 * j;
        let due = match ballot {
            Some(j) => Fault { number: 21, place: place(j) },
            None => Fault { number: 1, place: place(ballots.len()) },
        };
        let record = ballots_alone(form, ballots);
        assert_eq!(judge(&record, judging), Err(due), "{form:?} {judging:?}");
    }
}

/// By the rule's words, one commitment beside each earlier one.
fn first_copying(ballots: &[[Commitment; 6]]) -> Option<usize> {
    let copies = |six: &[Commitment; 6], other: &[Commitment; 6]| {
        pairs_of_places().any(|(own, others)| six[own] == other[others])
    };
    (0..ballots.len()).find(|&j| ballots[..j].iter().any(|earlier| copies(&ballots[j], earlier)))
}

/// Each of the six places of an earlier ballot, with each of a later one.
#[test]
fn every_pair_of_places() {
    let random = &mut Random::new(600);
    for (from, to) in pairs_of_places() {
        for (earlier, later) in [(0, 1), (0, 2), (1, 2)] {
            let copied = honest(random, 3).and((earlier, from), (later, to));
            check(random, &copied, Some(later));
        }
    }
}

/// Neighbours and others, the first and the last ballot among them: one commitment, and all six.
#[test]
fn every_pair_of_ballots() {
    let random = &mut Random::new(601);
    for later in 1..7 {
        for earlier in 0..later {
            let honest = honest(random, 7);
            let (from, to) = (random.index(6), random.index(6));
            check(random, &honest.clone().and((earlier, from), (later, to)), Some(later));
            check(random, &honest.and_ballot(earlier, later), Some(later));
        }
    }
}

/// The same six in another order.
#[test]
fn ballot_in_another_order() {
    let random = &mut Random::new(602);
    for turn in 1..6 {
        let turned = |copied: Copied, slot| copied.and((0, (slot + turn) % 6), (1, slot));
        let copied = (0..6).fold(honest(random, 2), turned);
        check(random, &copied, Some(1));
    }
}

/// Every two places of one ballot, the first, the last or another.
#[test]
fn equal_inside_a_ballot() {
    let random = &mut Random::new(603);
    for (first, second) in pairs_inside() {
        for ballot in 0..3 {
            let copied = honest(random, 3).and((ballot, first), (ballot, second));
            check(random, &copied, None);
        }
    }
}

/// Six equal ones in a ballot, and in each; of one ballot too.
#[test]
fn all_equal_inside_a_ballot() {
    let random = &mut Random::new(604);
    for n in [1, 2, 3] {
        let mut all = honest(random, n);
        for ballot in 0..n as usize {
            let one = honest(random, n).and_inside(ballot, 1);
            check(random, &one, None);
            all = all.and_inside(ballot, 4);
        }
        check(random, &all, None);
    }
}

/// Equal ones inside a ballot do not hide a copy, nor move its place.
#[test]
fn equal_inside_and_copied() {
    let random = &mut Random::new(605);
    for inside in 0..5 {
        for (earlier, later) in [(0, 4), (0, 2), (1, 2), (2, 3), (3, 4)] {
            let copied = honest(random, 5).and_inside(inside, 3).and((earlier, 0), (later, 5));
            check(random, &copied, Some(later));
        }
    }
    // All six of a ballot in all six places of another.
    let copied = honest(random, 4).and_inside(1, 0).and_ballot(1, 3);
    check(random, &copied, Some(3));
}

/// In three ballots: the second one's place.
#[test]
fn three_equal_ones() {
    let random = &mut Random::new(606);
    for [first, second, third] in [[0, 1, 2], [0, 1, 4], [0, 2, 3], [1, 2, 3], [2, 3, 4]] {
        for _ in 0..4 {
            let from = (first, random.index(6));
            let to = [third, second].map(|ballot| (ballot, random.index(6)));
            let copied = honest(random, 5).and(from, to[0]).and(from, to[1]);
            check(random, &copied, Some(second));
        }
    }
}

/// Two commitments, each in two ballots: the earlier of the copying ballots, whichever of the two
/// is the smaller, and whichever is copied from an earlier one.
#[test]
fn two_copies() {
    let random = &mut Random::new(607);
    let pairs: Vec<(usize, usize)> = (1..5).flat_map(|b| (0..b).map(move |a| (a, b))).collect();
    let mut met = BTreeSet::new();
    for (&first, &second) in pairs.iter().flat_map(|one| pairs.iter().map(move |two| (one, two))) {
        let honest = commitments(random, 5);
        let mut equal = [random.bytes(32), random.bytes(32)].map(|c| c.try_into().unwrap());
        for _ in 0..2 {
            equal.reverse();
            let mut ballots = honest.clone();
            // At even places one, at odd ones the other, so that both fit into one ballot.
            for (commitment, pair, odd) in [(equal[0], first, 0), (equal[1], second, 1)] {
                for ballot in [pair.0, pair.1] {
                    ballots[ballot][2 * random.index(3) + odd] = commitment;
                }
            }
            check_alone(&ballots, Some(first.1.min(second.1)));
            met.insert((equal[0] < equal[1], first.1.cmp(&second.1)));
        }
    }
    assert_eq!(met.len(), 6);
}

/// What is answered where one place of a ballot shows these bytes: 13 if it is opened.
#[track_caller]
fn check_posted(random: &mut Random, secrets: &Secrets, at: Slot, bytes: &[u8]) -> bool {
    let mut opened = false;
    for judging in JUDGINGS {
        let mut forgery = Forgery::new(secrets.clone(), 0b01);
        let layout = forgery.layout;
        forgery.set(layout.ballot(at.ballot) + 5 + 32 * at.slot, bytes);
        let record = forgery.record(random, judging);
        let half = layout.ballot_half(at.ballot);
        opened = usize::from(record[half + 3]) == at.slot % 2;
        let due = match opened {
            true => Err(Fault { number: 13, place: half }),
            false => Ok(secrets.votes.clone()),
        };
        assert_eq!(judge(&record, judging), due, "{at:?} {judging:?}");
    }
    opened
}

/// One byte differs, the first or the last or another, by one bit or by all: no copy.
#[test]
fn commitments_that_differ_in_one_byte() {
    let random = &mut Random::new(608);
    let mut met = BTreeSet::new();
    for form in FORMS {
        let secrets = Secrets::new(&inputs(random, Parameters { form, modulus: M, n: 3, m: 1 }));
        for byte in 0..32 {
            for bits in [0x01, 0x80, 0xFF] {
                let (from, slot) = (random.index(6), random.index(6));
                let mut commitment = secrets.ballot_commitments(0)[from];
                commitment[byte] ^= bits;
                let at = Slot { ballot: 1 + byte % 2, slot };
                met.insert(check_posted(random, &secrets, at, &commitment));
            }
        }
    }
    assert_eq!(met.len(), 2, "opened ones and others");
}

/// The same of ballots alone, at all places, and with any other value of the byte.
#[test]
fn every_byte_counts() {
    let random = &mut Random::new(609);
    for byte in 0..32 {
        for other in [0x01, 0x02, 0x10, 0x7F, 0x80, 0xFF] {
            let mut ballots = commitments(random, 3);
            let (from, to) = (random.index(6), random.index(6));
            ballots[2][to] = ballots[0][from];
            check_alone(&ballots, Some(2));
            ballots[2][to][byte] ^= other;
            check_alone(&ballots, None);
        }
    }
}

/// Commitments made of an earlier one's bytes: one half or one byte of it, its bytes or words in
/// another order, or bytes of two neighbours.
#[test]
fn parts_of_an_earlier_commitment() {
    let random = &mut Random::new(610);
    let honest = commitments(random, 2);
    let (first, second) = (honest[0][2], honest[0][3]);
    let mut alike: Vec<Commitment> = Vec::new();
    for split in 1..32 {
        let mut turned = first;
        turned.rotate_left(split);
        let across = [&first[split..], &second[..split]].concat().try_into().unwrap();
        let (mut begins, mut ends) = (honest[1][4], honest[1][4]);
        begins[..split].copy_from_slice(&first[..split]);
        ends[split..].copy_from_slice(&first[split..]);
        alike.extend([turned, across, begins, ends]);
    }
    let mut reversed = first;
    reversed.reverse();
    for width in [2, 4, 8, 16] {
        let mut words = first;
        words.chunks_mut(width).for_each(<[u8]>::reverse);
        alike.push(words);
    }
    for commitment in alike.into_iter().chain([reversed, first.map(|byte| !byte)]) {
        for slot in [0, 3, 5] {
            let mut ballots = honest.clone();
            ballots[1][slot] = commitment;
            check_alone(&ballots, None);
        }
    }
}

/// All commitments begin alike, or end alike, and one byte or two tell them apart: none is a copy,
/// until one is.
#[test]
fn equal_beginnings() {
    let random = &mut Random::new(611);
    for (high, low) in [(30, 31), (0, 1), (15, 16), (31, 0), (7, 8), (31, 30), (3, 4)] {
        for filler in [0x00, 0xFF, 0x5A] {
            let numbered = |k: usize| {
                let mut commitment = [filler; 32];
                [commitment[high], commitment[low]] =
                    ((k % 251 * 256 + k / 251) as u16).to_be_bytes();
                commitment
            };
            let order = random.permutation(6 * 60);
            let mut ballots: Vec<[Commitment; 6]> = (0..60)
                .map(|j| std::array::from_fn(|slot| numbered(order[6 * j + slot].into())))
                .collect();
            check_alone(&ballots, None);
            let (later, earlier) = (1 + random.index(59), random.index(6));
            ballots[later][random.index(6)] = ballots[random.index(later)][earlier];
            check_alone(&ballots, Some(later));
        }
    }
}

/// Out of few commitments, so that most boards have several copies and equal ones inside.
#[test]
fn any_copies() {
    let random = &mut Random::new(612);
    let mut met = BTreeSet::new();
    for _ in 0..1_500 {
        let n = 1 + random.index(9);
        let size = random.pick(&[1, 6, 20, 60, 300, 1_000]);
        let pool: Vec<Commitment> = (0..size)
            .map(|k| {
                let mut commitment = [0x33; 32];
                commitment[random.pick(&[0, 31])] = (k >> 8) as u8;
                commitment[16] = k as u8;
                commitment
            })
            .collect();
        let ballots: Vec<[Commitment; 6]> =
            (0..n).map(|_| std::array::from_fn(|_| random.pick(&pool))).collect();
        let due = first_copying(&ballots);
        check_alone(&ballots, due);
        met.insert(due);
    }
    assert!(met.len() >= 8 && met.contains(&None), "{met:?}");
}

/// Faults of a ballot before 21: what is answered, and what is done to the record where the ballot
/// starts.
type Damage = (u8, fn(&mut Vec<u8>, usize));

const DAMAGES: [Damage; 9] = [
    (1, |record, at| record.truncate(at)),
    (2, |record, at| record[at] = 0x03),
    (2, |record, at| record[at] = 0x0C),
    (1, |record, at| record.truncate(at + 1)),
    (1, |record, at| record.truncate(at + 5)),
    (1, |record, at| record.truncate(at + 5 + 32)),
    (1, |record, at| record.truncate(at + 196)),
    (5, |record, at| record.copy_within(at - 196..at - 192, at + 1)),
    (5, |record, at| record[at + 1..at + 5].fill(0)),
];

/// Another fault in a ballot before the copying one, in it, or behind it: the first ballot at fault
/// decides, and in one ballot 21 is last.
#[test]
fn beside_other_faults_of_ballots() {
    let random = &mut Random::new(613);
    for (form, judging) in ways() {
        for copying in 1..6 {
            let mut ballots = commitments(random, 6);
            // The first of the six, so that it is there where the ballot is cut behind it.
            ballots[copying][0] = ballots[random.index(copying)][random.index(6)];
            let whole = ballots_alone(form, &ballots);
            for other in 1..6 {
                for (number, change) in DAMAGES {
                    let mut record = whole.clone();
                    let place = |j| form.width() + 197 * j;
                    change(&mut record, place(other));
                    let due = match other <= copying {
                        true => Fault { number, place: place(other) },
                        false => Fault { number: 21, place: place(copying) },
                    };
                    assert_eq!(judge(&record, judging), Err(due), "{copying} and {other}");
                }
            }
        }
    }
}

/// A ballot that is at fault itself is not copied: nothing behind it is read.
#[test]
fn copied_from_a_faulty_ballot() {
    let random = &mut Random::new(614);
    let mut ballots = commitments(random, 4);
    ballots[2] = ballots[1];
    ballots[3] = ballots[1];
    for (form, judging) in ways() {
        for (number, change) in DAMAGES {
            let mut record = ballots_alone(form, &ballots);
            let place = form.width() + 197;
            change(&mut record, place);
            assert_eq!(judge(&record, judging), Err(Fault { number, place }));
        }
    }
}

/// A copy in the last ballot comes before anything of the first list entry, and of what is behind.
#[test]
fn before_the_list_entries() {
    let random = &mut Random::new(615);
    for (form, judging) in ways() {
        let parameters = Parameters { form, modulus: M, n: 3, m: 1 };
        let copied = Copied::none(inputs(random, parameters)).and((1, 4), (2, 1));
        let (record, layout) = (copied.posted(random, judging), Layout::new(&parameters));
        let fault = Fault { number: 21, place: layout.ballot(2) };
        for place in layout.commands().into_iter().filter(|&place| place >= layout.entry(0, 0)) {
            let mut other = record.clone();
            other[place] = 0xFF;
            assert_eq!(judge(&other, judging), Err(fault), "byte at {place}");
            assert_eq!(judge(&record[..place], judging), Err(fault), "cut at {place}");
        }
    }
}

/// Faults of the first command come before a copy.
#[test]
fn behind_the_first_command() {
    let random = &mut Random::new(616);
    let mut ballots = commitments(random, 2);
    ballots[1] = ballots[0];
    for (form, judging) in ways() {
        let record = ballots_alone(form, &ballots);
        for (byte, value, number) in [(0, 0x0D, 2), (6, 0, 3), (7, 13, 3), (7, 0, 3)] {
            let mut record = record.clone();
            let byte = if byte == 0 { 0 } else { byte + form.width() - 8 };
            record[byte] = value;
            assert_eq!(judge(&record, judging), Err(Fault { number, place: 0 }));
        }
    }
}

/// n says how many ballots there are: of two alike the second is none where n is 1.
#[test]
fn ballots_that_n_counts() {
    let random = &mut Random::new(617);
    let mut ballots = commitments(random, 3);
    ballots[1] = ballots[0];
    for (form, judging) in ways() {
        let mut record = ballots_alone(form, &ballots);
        for (n, number) in [(1, 2), (2, 21), (3, 21), (4, 21)] {
            record[form.width() - 2] = n;
            let place = form.width() + 197;
            assert_eq!(judge(&record, judging), Err(Fault { number, place }), "n = {n}");
        }
    }
}

/// Lists that have the ballots' own openings, entry for entry: with 01 they show their commitments,
/// but only ballots are compared.
#[test]
fn entries_like_ballots() {
    let random = &mut Random::new(618);
    for n in [1, 2, 5] {
        let mut copied = honest(random, n);
        mirror_ballots(&mut copied.inputs);
        check(random, &copied, None);
        let record = record_of(random, &copied.inputs, Judging::Plain);
        let layout = Layout::new(&copied.inputs.parameters);
        let ballot = copied.inputs.permutations[0] as usize;
        let six = &record[layout.ballot_commitment(ballot, 0)..][..192];
        for list in 0..2 {
            assert_eq!(*six, record[layout.entry_commitment(list, 0, 0)..][..192]);
        }
    }
}

/// Ballots' commitments posted in a list entry, with 0C too: none of the ballots is a copy.
#[test]
fn entries_that_show_a_ballot() {
    let random = &mut Random::new(623);
    for (form, judging) in ways() {
        let secrets = Secrets::new(&inputs(random, Parameters { form, modulus: M, n: 3, m: 1 }));
        let six = secrets.ballot_commitments(2);
        let mut forgery = Forgery::new(secrets, 0b01);
        let layout = forgery.layout;
        forgery.set(layout.entry_commitment(1, 1, 0), six.as_flattened());
        let record = forgery.record(random, judging);
        let fault = Fault { number: 13, place: layout.full_opening(0, 1) };
        assert_eq!(judge(&record, judging), Err(fault), "{form:?} {judging:?}");
    }
}

/// All entries of all lists alike, in all their places.
#[test]
fn entries_like_each_other() {
    let random = &mut Random::new(619);
    let mut inputs = still_inputs(random, Parameters::unnumbered(M, 4, 1));
    inputs.keys[192 * 4..].fill(0xA5);
    let copied = Copied::none(inputs);
    check(random, &copied, None);
    check(random, &copied.and_ballot(2, 3), Some(3));
}

/// With one ballot there is none that it could copy.
#[test]
fn fewest_ballots() {
    let random = &mut Random::new(620);
    let one = honest(random, 1);
    check(random, &one, None);
    check(random, &one.and((0, 0), (0, 1)), None);
    let two = honest(random, 2);
    check(random, &two, None);
    let two = two.and_inside(0, 2);
    check(random, &two, None);
    check(random, &two.and((0, 5), (1, 3)), Some(1));
}

/// Zeros, as posted, are a commitment like any other.
#[test]
fn commitments_of_zeros() {
    let random = &mut Random::new(621);
    for bytes in [[0x00; 32], [0xFF; 32]] {
        let mut ballots = commitments(random, 3);
        ballots[0][0] = bytes;
        check_alone(&ballots, None);
        ballots[0] = [bytes; 6];
        check_alone(&ballots, None);
        ballots[2][5] = bytes;
        check_alone(&ballots, Some(2));
    }
}

/// With the most lists, plainly: dice that draw a given mask are hard to find then.
#[test]
fn of_many_lists() {
    let random = &mut Random::new(622);
    let honest = Copied::none(inputs(random, Parameters::numbered(u32::MAX, M, 5, 12)));
    let copied = honest.clone().and((0, 3), (4, 2));
    for (board, number) in [(honest, 0), (copied, 21)] {
        assert_eq!(verdict(&board.posted(random, Judging::Plain), Judging::Plain), number);
    }
}
