//! Calls of public functions as no face makes them, so that their edits are tried on these too, and
//! short ones of the runoff; with the feature `edited`. Programs alone call `put_result`,
//! `put_election`, `put_refused`, `put_lines` and the calendar's `put_page`.

use paddockyear_tests::boards::copies::{ballots_alone, commitments};
use paddockyear_tests::boards::samples::files;
use paddockyear_tests::boards::{honest, inputs, BOTH};
use paddockyear_tests::edited::protocol::{Form, Receipt, Rule};
use paddockyear_tests::edited::runoff as edited_runoff;
use paddockyear_tests::edited::schedule as edited_schedule;
use paddockyear_tests::edited::{decimals, limits, results, verifier, wire};
use paddockyear_tests::random::Random;
use paddockyear_tests::reference::calendar::Date;
use paddockyear_tests::reference::page::calendar_page;
use paddockyear_tests::reference::runoff::Candidate;
use paddockyear_tests::reference::tablet::receipt;
use paddockyear_tests::reference::terms::{self, Parameters, MAX_BALLOTS};
use paddockyear_tests::reference::writer::SidesSource;
use paddockyear_tests::subjects::product::{calendar, part_three, runoff, window_at};
use std::cmp::Ordering;

#[test]
fn slices_of_two_lengths() {
    assert!(!wire::same_bytes(b"ab", b"abc"));
    assert!(!wire::same_bytes(b"abc", b"ab"));
    assert!(!wire::same_bytes(b"abc", b"abd"));
}

/// Each byte as the only one that tells two commitments apart.
#[test]
fn orders_of_commitments() {
    for place in 0..32 {
        let (low, mut high) = ([7; 40], [7; 40]);
        high[8 + place] = 8;
        assert_eq!(wire::compare32(&low, 8, &high, 8), Ordering::Less);
        assert_eq!(wire::compare32(&high, 8, &low, 8), Ordering::Greater);
        assert_eq!(wire::compare32(&high, 8, &high, 8), Ordering::Equal);
    }
}

/// A copy, and behind it an id that falls: the suite's large boards take up the work that an edit is
/// tried for.
#[test]
fn copy_before_another_fault() {
    let mut ballots = commitments(&mut Random::new(64), 4);
    ballots[1][2] = ballots[0][5];
    let mut record = ballots_alone(terms::Form::Unnumbered, &ballots);
    record[8 + 3 * 197 + 1..8 + 3 * 197 + 5].fill(0);
    assert_eq!(verifier::judge_plainly(&record).map_err(Rule::number), Err(21));
}

#[test]
fn lines_of_the_tally() {
    let (_, board) = files().into_iter().find(|(name, _)| name == "eight-ballots.board").unwrap();
    let mut out = vec![0u8; 5 + 22 * MAX_BALLOTS as usize];
    let end = results::page::put_result(&board, &mut out, 5);
    assert_eq!(&out[5..end], b"1 3\n34 2\n51 1\n86 2\n");
    assert!(out[..5].iter().chain(&out[end..]).all(|byte| *byte == 0));
}

#[test]
fn line_of_an_election() {
    let line = |form| {
        let mut out = vec![0u8; 5 + 20];
        let end = results::page::put_election(form, &mut out, 5);
        assert!(out[..5].iter().chain(&out[end..]).all(|byte| *byte == 0));
        String::from_utf8(out[5..end].to_vec()).unwrap()
    };
    assert_eq!(line(Form::Unnumbered), "");
    for election in [0, 7, 120, u32::MAX] {
        assert_eq!(line(Form::Numbered(election)), format!("ELECTION {election}\n"));
    }
}

#[test]
fn page_of_a_refusal() {
    for number in [1, 17, 20] {
        let mut out = vec![0u8; 19];
        let end = decimals::put_refused(number, &mut out);
        assert_eq!(String::from_utf8_lossy(&out[..end]), format!("REFUSED {number}\n"));
    }
}

/// Three rounds with a tie for last, and an election that nobody wins.
#[test]
fn lines_of_the_runoff() {
    let lines = |votes: &[u32], candidates| {
        let mut out = vec![0u8; 5 + 13 * 144];
        let end = edited_runoff::page::put_lines(votes, candidates, &mut out, 5);
        assert!(out[..5].iter().chain(&out[end..]).all(|byte| *byte == 0));
        String::from_utf8(out[5..end].to_vec()).unwrap()
    };
    let votes = [0, 1, 1, 1, 2, 2, 32, 34, 42, 42, 42, 102];
    let due = "ROUND\t#1\t#2\t#3\t#4\tLEAVES\n1\t3\t2\t2\t3\t#3\n2\t3\t3\t-\t4\t#2\n\
               3\t3\t-\t-\t4\t-\nWINNER\t#4\nBLANK\t1\nSPOILED\t1\n";
    assert_eq!(lines(&votes, 4), due);
    let due = "ROUND\t#1\tLEAVES\n1\t0\t-\nWINNER\tNONE\nBLANK\t1\nSPOILED\t2\n";
    assert_eq!(lines(&[0, 2, 11], 1), due);
}

/// Windows on the first and the last day of a month and of a year, in the first and behind the last
/// year, and what is refused.
#[test]
fn pages_of_the_calendar() {
    for dates in [
        ["2000-01-01", "2000-01-03"],
        ["2025-12-30", "2026-01-02"],
        ["2026-03-30", "2026-04-16"],
        ["2026-12-30", "2027-01-01"],
        ["2026-11-27", "2026-11-30"],
        ["2028-02-28", "2028-02-29"],
        ["2199-12-31", "2199-12-31"],
        ["2026-02-29", "2026-03-01"],
    ] {
        let numbers = dates.map(|date| date.replace('-', "").parse().unwrap());
        let election = edited_schedule::dates::date_in(numbers[0]);
        let mut out = [7u8; 216];
        let end = edited_schedule::page::put_page(election, &numbers[1..], &mut out);
        assert_eq!(String::from_utf8_lossy(&out[..end]), calendar_page(&dates).unwrap());
        assert!(out[end..].iter().all(|byte| *byte == 7));
    }
}

/// Days that are no days, and holidays that do not rise: the suite's many days take up the work that
/// an edit is tried for.
#[test]
fn refused_days() {
    let on = Date::new(2026, 11, 17);
    for (election, holidays) in [
        (Date::new(2026, 2, 29), vec![]),
        (on, vec![20260151]),
        (on, vec![20260101, 20260101]),
        (on, vec![20260102, 20260102]),
    ] {
        assert_eq!(calendar(election, &holidays), Err(22));
        assert_eq!(window_at(election, &holidays, 0), Err(22));
    }
}

/// Records that end with their first command, or a byte before.
#[test]
fn first_commands() {
    for (name, width) in [("one-ballot.board", 8), ("numbered-one-ballot.board", 12)] {
        let (_, board) = files().into_iter().find(|(file, _)| file == name).unwrap();
        for end in [width - 1, width] {
            assert_eq!(verifier::judge_plainly(&board[..end]).map_err(Rule::number), Err(1));
        }
    }
}

/// Receipts of other lengths, and one as printed, on a board of one ballot: the suite's long boards
/// take up the work that an edit is tried for.
#[test]
fn lengths_of_receipts() {
    let (_, board) = files().into_iter().find(|(name, _)| name == "one-ballot.board").unwrap();
    let command = &board[8..8 + 197];
    let printed = receipt(u32::from_be_bytes(command[1..5].try_into().unwrap()), command);
    let longer: Vec<u8> = printed.iter().copied().chain([0]).collect();
    for ask in [results::receipts::check_receipt, results::receipts::look_up] {
        assert_eq!(ask(&board, &printed), Ok(Receipt::AsPrinted));
        for other in [&longer[..], &printed[..31], &[]] {
            assert_eq!(ask(&board, other).map_err(Rule::number), Err(18));
        }
    }
}

/// A record that ends with the second dice, and other first dice than those that the mask was drawn
/// from, which plain judging does not mind.
#[test]
fn dice() {
    let (_, mut board) = files().into_iter().find(|(name, _)| name == "one-ballot.board").unwrap();
    let compared = usize::from(board[7]);
    let dice = 8 + 197 + 2 * 196 * compared + 1;
    let second_dice = dice + 34 + 10 * compared + 1;
    assert_eq!((board[dice - 1], board[second_dice - 1]), (4, 6));
    assert_eq!(verifier::judge_as_drawn(&board), Ok(()));
    assert_eq!(verifier::judge_as_drawn(&board[..second_dice + 30]).map_err(Rule::number), Err(1));
    for place in dice..dice + 30 {
        board[place] = if board[place] == b'1' { b'2' } else { b'1' };
        assert_eq!(verifier::judge_plainly(&board), Ok(()));
        let _ = verifier::judge_as_drawn(&board);
    }
}

/// More places of ballots in compared lists than there were once in one.
#[test]
fn places_of_twelve_lists() {
    let (random, parameters) = (&mut Random::new(62), Parameters::unnumbered(100, 90, 12));
    assert!(parameters.m * parameters.n > 1024);
    let given = inputs(random, parameters);
    let [_, _, length] = parameters.part_lengths();
    let (dice, mask, sides) = (random.dice(), random.mask(12), random.sides(90));
    let mut out = vec![0; length];
    let answer = part_three(&given, &dice, mask, SidesSource::Given(&sides), &mut out);
    assert_eq!(answer, Ok(()));
}

/// A place and a position beyond the marks that there were once.
#[test]
fn many_ballots_with_marks() {
    let places: Vec<u16> = (0..1025).collect();
    assert!(limits::is_permutation(1025, &places));
    let parameters = Parameters::unnumbered(100, 1025, 1);
    let record = honest(&mut Random::new(63), parameters, BOTH).record();
    assert_eq!(verifier::judge_as_drawn(&record), Ok(()));
}

/// Refusals and elections of few votes: the suite's long ones take up the work that an edit is tried
/// for.
#[test]
fn small_runoffs() {
    let ties = [1, 2, 3, 12, 21, 31, 0, 11, 10, 4];
    let numbers = (0..=11).chain([256, 259, 65_539, u32::MAX]);
    let (mut counted, mut refused) = (0, [0; 21]);
    for candidates in numbers {
        for length in 0..=11 {
            let mut table = vec![Candidate { count: 77, left: 77 }; length];
            for votes in [&ties[..0], &ties[..2], &ties[..3], &ties[2..5], &ties] {
                match runoff(votes, candidates, &mut table) {
                    Ok(_) => counted += 1,
                    Err(number) => refused[usize::from(number)] += 1,
                }
            }
        }
    }
    assert_eq!((counted, refused[18], refused[20]), (5 * 9, 5 * 9 * 11, 5 * 7 * 12));
}
