//! Rule 21 among more ballots than a byte counts, up to the most. Most records end behind their
//! ballots, where 1 is due.

use crate::subject::judge;
use paddockyear_tests::boards::copies::*;
use paddockyear_tests::boards::{inputs, FORMS, MANY};
use paddockyear_tests::random::Random;
use paddockyear_tests::reference::judge::{judge_by, Fault, Judging, JUDGINGS};
use paddockyear_tests::reference::terms::{sorted, Commitment, Parameters, COPIES_STAND};

const MOST: usize = 4096;

/// Ballots at both sides of where a byte of an index ends, be it of ballots, of commitments or of
/// their bytes, and at both ends.
const PLACES: [usize; 13] = [0, 1, 42, 43, 255, 256, 682, 683, 1365, 2730, 2731, 4094, 4095];

/// 21 at this ballot, else 1 behind all; forms and judgings in turn.
#[track_caller]
fn check(turn: usize, ballots: &[[Commitment; 6]], copying: Option<usize>) {
    let (form, judging) = (FORMS[turn / 2 % 2], JUDGINGS[turn % 2]);
    let place = |j| form.width() + 197 * j;
    let due = match copying {
        Some(j) => Fault { number: 21, place: place(j) },
        None => Fault { number: 1, place: place(ballots.len()) },
    };
    assert_eq!(judge(&ballots_alone(form, ballots), judging), Err(due), "{form:?} {judging:?}");
}

/// Every two far ballots have one commitment in common, and nothing else is a copy.
#[test]
fn every_pair_of_far_ballots() {
    let random = &mut Random::new(630);
    for n in MANY.map(|n| n as usize) {
        let mut ballots = commitments(random, n);
        (0..4).for_each(|turn| check(turn, &ballots, None));
        let mut far: Vec<usize> = PLACES.into_iter().filter(|&j| j < n - 1).collect();
        far.push(n - 1);
        let mut turn = n;
        for (at, &later) in far.iter().enumerate() {
            for &earlier in &far[..at] {
                let (from, to) = (random.index(6), random.index(6));
                let before = ballots[later];
                ballots[later][to] = ballots[earlier][from];
                check(turn, &ballots, Some(later));
                ballots[later] = before;
                turn += 1;
            }
        }
    }
}

/// Whole ballots, the last being the first, and one commitment at the ends of the ballots.
#[test]
fn first_and_last() {
    let random = &mut Random::new(631);
    let honest = commitments(random, MOST);
    for (turn, (from, to)) in [(0, 5), (5, 0), (0, 0), (5, 5)].into_iter().enumerate() {
        let mut ballots = honest.clone();
        ballots[MOST - 1][to] = ballots[0][from];
        check(turn, &ballots, Some(MOST - 1));
    }
    for turn in 0..4 {
        let mut ballots = honest.clone();
        ballots[MOST - 1] = ballots[0];
        check(turn, &ballots, Some(MOST - 1));
    }
}

/// The earliest of many copying ballots decides: all ballots alike, two in turn, the second half as
/// the first half in either order, and each with one of the ballot before.
#[test]
fn many_copies() {
    let random = &mut Random::new(632);
    let honest = commitments(random, MOST);
    let half = MOST / 2;
    let one_before = |j: usize| {
        let mut six = honest[j];
        six[j % 6] = if j > 3000 { honest[j - 1][(j + 3) % 6] } else { six[j % 6] };
        six
    };
    let boards: [(Vec<[Commitment; 6]>, usize); 6] = [
        (vec![honest[0]; MOST], 1),
        (vec![[honest[0][0]; 6]; MOST], 1),
        ((0..MOST).map(|j| honest[j % 2]).collect(), 2),
        ((0..MOST).map(|j| honest[j % half]).collect(), half),
        (
            (0..MOST).map(|j| if j < half { honest[j] } else { honest[MOST - 1 - j] }).collect(),
            half,
        ),
        ((0..MOST).map(one_before).collect(), 3001),
    ];
    for (turn, (ballots, due)) in boards.into_iter().enumerate() {
        check(turn, &ballots, Some(due));
    }
}

/// Commitments that only two bytes tell apart, by their number.
fn numbered(places: [usize; 2], filler: u8, number: usize) -> Commitment {
    let mut commitment = [filler; 32];
    let [high, low] = places;
    [commitment[high], commitment[low]] = (number as u16).to_be_bytes();
    commitment
}

/// Orders of as many numbers, in twelves, that may be bad for a sort.
fn orders(random: &mut Random, count: usize) -> Vec<Vec<usize>> {
    let half = count / 2;
    vec![
        (0..count).collect(),
        (0..count).rev().collect(),
        random.permutation(count).into_iter().map(usize::from).collect(),
        (0..half).chain((half..count).rev()).collect(),
        (0..count).map(|k| if k % 2 == 0 { k / 2 } else { half + k / 2 }).collect(),
        (0..count).map(|k| k % 6 * (count / 6) + k / 6).collect(),
        (0..count).map(|k| k % 12 * (count / 12) + k / 12).collect(),
    ]
}

fn in_ballots(order: &[usize], commitment: impl Fn(usize) -> Commitment) -> Vec<[Commitment; 6]> {
    order.chunks(6).map(|six| std::array::from_fn(|slot| commitment(six[slot]))).collect()
}

/// All commitments alike but for two bytes, in orders that may be bad for a sort: no copy, and one
/// at the very end.
#[test]
fn alike_but_for_two_bytes() {
    let random = &mut Random::new(633);
    let mut turn = 0;
    for (places, filler) in [([30, 31], 0x00), ([31, 30], 0xFF), ([0, 1], 0x77), ([15, 16], 0x00)] {
        for order in orders(random, 6 * MOST) {
            let mut ballots = in_ballots(&order, |k| numbered(places, filler, k));
            check(turn, &ballots, None);
            let (earlier, from) = (random.index(MOST - 1), random.index(6));
            ballots[MOST - 1][5] = ballots[earlier][from];
            check(turn + 1, &ballots, Some(MOST - 1));
            turn += 1;
        }
    }
}

/// All commitments alike but for the last byte, or the first: 42 ballots have 252, and a byte has
/// four more.
#[test]
fn alike_but_for_one_byte() {
    let random = &mut Random::new(634);
    for byte in [31, 0, 16] {
        let alike = |k: usize| numbered([(byte + 1) % 32, byte], 0x00, k);
        for order in orders(random, 252) {
            let mut ballots = in_ballots(&order, alike);
            check(byte, &ballots, None);
            let (earlier, from) = (random.index(41), random.index(6));
            ballots[41][random.index(6)] = ballots[earlier][from];
            check(byte + 1, &ballots, Some(41));
        }
    }
}

/// Runs of equal ones inside ballots: six alike in each of the most ballots, and one more of them.
#[test]
fn equal_inside_every_ballot() {
    let random = &mut Random::new(635);
    let order: Vec<usize> = random.permutation(MOST).into_iter().map(usize::from).collect();
    for (turn, order) in [order, (0..MOST).collect(), (0..MOST).rev().collect()].iter().enumerate()
    {
        let six = |k: &usize| [numbered([30, 31], 0x00, *k); 6];
        let mut ballots: Vec<[Commitment; 6]> = order.iter().map(six).collect();
        check(turn, &ballots, None);
        let later = 1 + random.index(MOST - 1);
        ballots[later][random.index(6)] = ballots[random.index(later)][0];
        check(turn + 1, &ballots, Some(later));
    }
}

/// Other faults beside a far copy: in the ballot before, in the same one, and in the one behind.
#[test]
fn beside_other_faults() {
    let random = &mut Random::new(636);
    let mut ballots = commitments(random, MOST);
    let copying = 2731;
    ballots[copying][4] = ballots[683][2];
    for (form, judging) in FORMS.into_iter().zip([Judging::Plain, Judging::Drawn]) {
        let record = ballots_alone(form, &ballots);
        let place = |j| form.width() + 197 * j;
        for other in [copying - 1, copying, copying + 1, MOST - 1] {
            let before = other <= copying;
            let fault = |number| match before {
                true => Fault { number, place: place(other) },
                false => Fault { number: 21, place: place(copying) },
            };
            let cut = judge(&record[..place(other) + 196], judging);
            assert_eq!(cut, Err(fault(1)), "cut in {other}");
            let mut falls = record.clone();
            falls[place(other) + 1..][..4].fill(0);
            assert_eq!(judge(&falls, judging), Err(fault(5)), "id of {other}");
            falls[place(other)] = 0x03;
            assert_eq!(judge(&falls, judging), Err(fault(2)), "byte of {other}");
        }
    }
}

/// Whole boards: equal ones inside far ballots stand, and a far copy does not.
#[test]
fn whole_boards() {
    let random = &mut Random::new(637);
    for (n, form) in [257, 1025].into_iter().zip(FORMS) {
        let last = n as usize - 1;
        let parameters = Parameters { form, modulus: u32::MAX, n, m: 1 };
        let inside =
            Copied::none(inputs(random, parameters)).and((last, 1), (last, 4)).and((0, 0), (0, 5));
        let openings = inside.openings();
        let record = record_of(random, &openings, Judging::Drawn);
        assert_eq!(judge(&record, Judging::Drawn), Ok(sorted(&openings.votes)));
        let copied = inside.and((0, 3), (last, 2));
        let record = copied.posted(random, Judging::Drawn);
        let fault = Fault { number: 21, place: form.width() + 197 * last };
        for judging in JUDGINGS {
            assert_eq!(judge(&record, judging), Err(fault), "{judging:?}");
            let before = judge_by(COPIES_STAND, &record, judging);
            assert_eq!(before, copied.found_posted(&record), "{judging:?}");
        }
    }
}
