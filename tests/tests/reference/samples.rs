//! Document 01's samples of the terms and of the page, and the runoff's page.

use paddockyear_tests::boards::samples::with_votes;
use paddockyear_tests::boards::{board, inputs, BOTH};
use paddockyear_tests::random::Random;
use paddockyear_tests::reference::columns::{column, composed};
use paddockyear_tests::reference::drawing::choose;
use paddockyear_tests::reference::judge::{judge, Judging};
use paddockyear_tests::reference::page::{candidates_of, page, teller_page};
use paddockyear_tests::reference::tablet::SplitVote;
use paddockyear_tests::reference::terms::*;

#[test]
fn sums_modulo_100() {
    assert_eq!(sum(100, &[38, 80]), 18);
    assert_eq!(difference(100, 0, 17), 83);
}

#[test]
fn tablet() {
    let split = SplitVote { vote: 24, shares: [50, 60], firsts: [7, 99, 30] };
    assert_eq!(split.rows(100)[2], 14);
    assert_eq!(split.six(100), [7, 43, 99, 61, 30, 84]);
    let split = SplitVote { vote: 1, shares: [1, 1], firsts: [1, 1, 1] };
    assert_eq!(split.rows(2)[2], 1);
    assert_eq!(split.six(2), [1, 0, 1, 0, 1, 0]);
}

#[test]
fn columns() {
    assert_eq!(column(9, &[5, 6, 7], &[1, 2, 3], &[2, 0, 1]), [1, 6, 8]);
    assert_eq!(composed([&[1, 2, 0]; 3]), [0, 1, 2]);
}

/// Three different permutations pin their order.
#[test]
fn order_of_permutations() {
    assert_eq!(composed([&[1, 2, 0], &[0, 2, 1], &[2, 1, 0]]), [2, 0, 1]);
    assert_eq!(composed([&[2, 1, 0], &[0, 2, 1], &[1, 2, 0]]), [0, 1, 2]);
}

#[test]
fn masks() {
    assert!(mask_stands(2, 3));
    assert!(!mask_stands(2, 11));
    assert!(!mask_stands(2, 17));
    assert_eq!(choose(1, |_| 7), 2);
}

#[test]
fn t_fits_both_sides() {
    assert!(halves_agree(100, 0, [36, 0, 0], [90, 0, 0], 46));
    assert!(halves_agree(100, 1, [88, 0, 0], [34, 0, 0], 46));
    assert!(!halves_agree(100, 1, [88, 0, 0], [90, 0, 0], 46));
    assert!(!halves_agree(100, 1, [80, 0, 0], [34, 0, 0], 46));
}

#[test]
fn permuted_votes() {
    assert!(is_permutation_of(&[5, 2, 5], &[2, 5, 5]));
    assert!(!is_permutation_of(&[2, 2, 5], &[2, 5, 5]));
}

#[test]
fn page_of_2_5_5() {
    let random = &mut Random::new(5);
    let mut inputs = inputs(random, Parameters::unnumbered(9, 3, 2));
    inputs.votes = vec![5, 2, 5];
    let record = board(random, &inputs, BOTH).record();
    assert_eq!(judge(&record, Judging::Drawn), Ok(vec![2, 5, 5]));
    assert_eq!(page(&record), "ACCEPTED\n2 1\n5 2\n");
    assert_eq!(page(&[]), "REFUSED 1\n");
    assert_eq!(page(&[0x01; 65_536]), "REFUSED 2\n");
    assert_eq!(page(&[0x01; 65_537]), "TOO LONG\n");
}

/// Worked out by hand: 4, 3 and 2 votes, of which one for 3 goes on to 1 and the other to 2.
#[test]
fn page_of_two_rounds() {
    let votes = [1, 13, 12, 1, 2, 21, 2, 31, 32, 0, 0, 33];
    let record = with_votes(&mut Random::new(6), Form::Unnumbered, 1_000, &votes).record();
    let due = "ACCEPTED\nROUND\t#1\t#2\t#3\tLEAVES\n1\t4\t3\t2\t#3\n2\t5\t4\t-\t-\n\
               WINNER\t#1\nBLANK\t2\nSPOILED\t1\n";
    assert_eq!(teller_page(3, &record), due);
    let due = "ACCEPTED\nROUND\t#1\tLEAVES\n1\t2\t-\nWINNER\t#1\nBLANK\t2\nSPOILED\t8\n";
    assert_eq!(teller_page(1, &record), due);
    for candidates in [0, 10, u32::MAX] {
        assert_eq!(teller_page(candidates, &record), "REFUSED 20\n");
        assert_eq!(teller_page(candidates, &record[1..]), "REFUSED 2\n");
        assert_eq!(teller_page(candidates, &[1; 65_537]), "TOO LONG\n");
    }
}

/// The election's number stands below `ACCEPTED`, on both pages, and on no other.
#[test]
fn pages_of_numbered_elections() {
    let random = &mut Random::new(8);
    for (election, line) in [
        (0, "ELECTION 0\n"),
        (1, "ELECTION 1\n"),
        (255, "ELECTION 255\n"),
        (256, "ELECTION 256\n"),
        (0x0102_0304, "ELECTION 16909060\n"),
        (0x0C0C_0C0C, "ELECTION 202116108\n"),
        (1 << 31, "ELECTION 2147483648\n"),
        (u32::MAX, "ELECTION 4294967295\n"),
    ] {
        let record = with_votes(random, Form::Numbered(election), 9, &[5, 2, 5]).record();
        assert_eq!(page(&record), format!("ACCEPTED\n{line}2 1\n5 2\n"));
        let rounds = "ROUND\t#1\t#2\tLEAVES\n1\t0\t1\t-\nWINNER\t#2\nBLANK\t0\nSPOILED\t2\n";
        assert_eq!(teller_page(2, &record), format!("ACCEPTED\n{line}{rounds}"));
        for candidates in [0, 10, u32::MAX] {
            assert_eq!(teller_page(candidates, &record), "REFUSED 20\n");
        }
        for (input, due) in [
            (&record[..record.len() - 1], "REFUSED 1\n"),
            (&record[..11], "REFUSED 1\n"),
            (&[&record[..], &[0]].concat(), "REFUSED 17\n"),
            (&[&[0x0D], &record[1..]].concat(), "REFUSED 2\n"),
            (&[&record[..], &[0; 65_536]].concat(), "TOO LONG\n"),
        ] {
            assert_eq!(page(input), due);
            assert_eq!(teller_page(2, input), due);
        }
    }
}

#[test]
fn page_without_a_winner() {
    let record = with_votes(&mut Random::new(7), Form::Unnumbered, 1_000, &[0, 0, 30, 3]).record();
    let due = "ACCEPTED\nROUND\t#1\t#2\tLEAVES\n1\t0\t0\t-\n\
               WINNER\tNONE\nBLANK\t2\nSPOILED\t2\n";
    assert_eq!(teller_page(2, &record), due);
}

#[test]
fn arguments() {
    assert_eq!(candidates_of(&["3"]), Some(3));
    assert_eq!(candidates_of(&["0003"]), Some(3));
    assert_eq!(candidates_of(&["10"]), Some(10));
    assert_eq!(candidates_of(&["4294967299"]), Some(u32::MAX));
    for wrong in [&[][..], &[""], &["3", "3"], &["+3"], &["-3"], &[" 3"], &["3 "], &["3x"]] {
        assert_eq!(candidates_of(wrong), None, "{wrong:?}");
    }
}
