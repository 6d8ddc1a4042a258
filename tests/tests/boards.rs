//! The files of `samples/`: what the product's election writes, or without the feature `linked` the
//! reference, and what their names promise.

use std::collections::{BTreeMap, BTreeSet};

use paddockyear_tests::boards::samples::{files, promised, stored, OF_COPIES};
use paddockyear_tests::hex;
use paddockyear_tests::reference::judge::{judge_by, Fault, Judging, JUDGINGS};
use paddockyear_tests::reference::page::{page, teller_page, LONGEST};
use paddockyear_tests::reference::runoff::{Candidate, Outcome};
use paddockyear_tests::reference::terms::COPIES_STAND;

#[cfg(feature = "linked")]
use paddockyear_tests::subjects::product as subject;
#[cfg(not(feature = "linked"))]
use paddockyear_tests::subjects::reference as subject;

#[test]
fn they_are_what_is_written() {
    let (stored, written) = (stored().unwrap(), BTreeMap::from_iter(files()));
    assert!(stored.keys().eq(written.keys()), "{:?}", stored.keys());
    for (name, bytes) in written {
        assert!(stored[&name] == bytes, "{name}");
    }
}

/// How many boards of one form there are, without those of document 02's item 5 with 01, and the
/// digest of all, one behind the other in the order of their names.
fn digest_of(numbered: bool) -> (usize, String) {
    let mut stored = stored().unwrap();
    stored.retain(|name, _| name.starts_with("numbered-") == numbered);
    stored.retain(|name, _| !OF_COPIES.contains(&name.as_str()));
    let count = stored.len();
    let all: Vec<u8> = stored.into_values().flatten().collect();
    (count, hex(&subject::sha3_256(&all)))
}

/// Boards stored before document 02's item 4 keep their bytes: the digest was worked out then by
/// another program.
#[test]
fn unnumbered_ones_keep_their_bytes() {
    let digest = "aa8ec772ac564efe6fc1ca77643f55b95306fc74d3ec577d9a64eab13134581b";
    assert_eq!(digest_of(false), (15, digest.to_string()));
}

/// The same of those of item 5.
#[test]
fn copies_keep_their_bytes() {
    let stored = stored().unwrap();
    let digests = OF_COPIES.map(|name| hex(&subject::sha3_256(&stored[name])));
    assert_eq!(
        digests,
        [
            "5e85d2a6014583d76c5d7901e3fd85c56338b744690f89a4a4ac45226a89786c",
            "451b969d8784991f4a307a949bac78951119a2055b64f48126057eb8a0dc67a6"
        ]
    );
}

/// The same of those with 0C, which item 8 made anew.
#[test]
fn numbered_ones_keep_their_bytes() {
    let digest = "93e1ebea56905adbbe42c9a64db1e66e65ac3dd6757c745b9a53e9dae7fff050";
    assert_eq!(digest_of(true), (9, digest.to_string()));
}

/// Their first commands, of every kind: whole ones and one that is cut behind M.
#[test]
fn first_commands_of_numbered_ones() {
    let stored = stored().unwrap();
    let first = |name: &str| {
        let record = &stored[&format!("numbered-{name}.board")];
        hex(&record[..record.len().min(12)])
    };
    assert_eq!(first("eight-ballots"), "0c0000000200000064000802");
    assert_eq!(first("one-ballot"), "0cffffffff00000002000101");
    assert_eq!(first("ranked"), "0c000000003b9aca00001701");
    assert_eq!(first("refused-1"), "0c0000000200000064");
    assert_eq!(first("refused-13"), "0c0000000400000064000301");
    assert_eq!(first("refused-21"), "0c0000000300000064000501");
}

/// `refused-N` is refused by rule N, all others are accepted, and the program reads each.
#[test]
fn their_names_are_true() {
    let mut refused = BTreeSet::new();
    for (name, bytes) in stored().unwrap() {
        let number =
            subject::judge(&bytes, Judging::Drawn).map_or_else(|fault| fault.number, |_| 0);
        assert_eq!(number, promised(&name).unwrap_or(0), "{name}");
        assert!(bytes.len() <= LONGEST, "{name}");
        refused.insert(number);
    }
    assert_eq!(refused, BTreeSet::from([0, 1, 2, 5, 8, 9, 12, 13, 14, 16, 17, 21]));
    assert_eq!(page(&stored().unwrap()["votes-2-5-5.board"]), "ACCEPTED\n2 1\n5 2\n");
}

/// Worked out by hand: 18 votes count at first, then 17.
#[test]
fn the_ranked_board() {
    check_ranked(&stored().unwrap()["ranked.board"], "");
}

#[test]
fn the_ranked_board_numbered() {
    check_ranked(&stored().unwrap()["numbered-ranked.board"], "ELECTION 0\n");
}

/// The election's line is due below the first.
fn check_ranked(record: &[u8], election: &str) {
    let mut votes = [0; 23];
    subject::announced_votes(record, &mut votes).unwrap();
    let mut table = [Candidate { count: 77, left: 77 }; 4];
    let outcome = subject::runoff(&votes, 4, &mut table);
    assert_eq!(outcome, Ok(Outcome { winner: Some(2), blank: 2, spoiled: 3 }));
    assert_eq!(table.map(|entry| (entry.count, entry.left)), [(8, 0), (9, 0), (3, 2), (3, 1)]);
    let text = "ROUND\t#1\t#2\t#3\t#4\tLEAVES\n\
                1\t6\t6\t3\t3\t#4\n2\t7\t7\t3\t-\t#3\n3\t8\t9\t-\t-\t-\n\
                WINNER\t#2\nBLANK\t2\nSPOILED\t3\n";
    assert_eq!(teller_page(4, record), format!("ACCEPTED\n{election}{text}"));
}

/// The six commitments of a ballot of a record.
fn six(record: &[u8], ballot: usize) -> Vec<&[u8]> {
    let first = if record[0] == 0x0C { 12 } else { 8 };
    record[first + 197 * ballot + 5..][..192].chunks(32).collect()
}

/// Equal commitments: in one ballot all six, and two of the next.
#[test]
fn the_board_with_equal_ones_inside() {
    let record = &stored().unwrap()["equal-inside.board"];
    assert!(six(record, 1).iter().all(|&one| one == six(record, 1)[0]));
    assert_eq!(six(record, 2)[0], six(record, 2)[5]);
    let each: Vec<BTreeSet<&[u8]>> = (0..4).map(|j| BTreeSet::from_iter(six(record, j))).collect();
    assert_eq!(each.iter().map(BTreeSet::len).collect::<Vec<usize>>(), [6, 1, 5, 6]);
    assert_eq!(each.iter().flatten().collect::<BTreeSet<_>>().len(), 18);
    for judging in JUDGINGS {
        assert!(subject::judge(record, judging).is_ok(), "{judging:?}");
    }
}

/// Boards with copies: refused by either judging, at the copying ballot, and proofs before item 5.
#[test]
fn the_boards_with_copied_ballots() {
    let stored = stored().unwrap();
    let (again, place) = (&stored["refused-21.board"], &stored["numbered-refused-21.board"]);
    assert_eq!(six(again, 2), six(again, 0));
    assert_eq!(six(place, 4)[0], six(place, 1)[5]);
    for (record, at) in [(again, 8 + 197 * 2), (place, 12 + 197 * 4)] {
        for judging in JUDGINGS {
            let fault = Fault { number: 21, place: at };
            assert_eq!(subject::judge(record, judging), Err(fault), "{judging:?}");
            assert!(judge_by(COPIES_STAND, record, judging).is_ok(), "{judging:?}");
        }
        assert_eq!((page(record), teller_page(2, record)), (refused(21), refused(21)));
        assert_eq!(teller_page(0, record), refused(21));
    }
}

/// The board of another election: with the number that its ballots and lists were made for it is a
/// proof, but for what is drawn.
#[test]
fn the_board_of_another_election() {
    let record = &stored().unwrap()["numbered-refused-13.board"];
    let half = 12 + 197 * 3 + 196 * 6 + 35 + 10 * 3 + 31;
    for judging in JUDGINGS {
        let fault = Fault { number: 13, place: half };
        assert_eq!(subject::judge(record, judging), Err(fault), "{judging:?}");
    }
    let mut other = record.clone();
    other[4] = 3;
    assert!(subject::judge(&other, Judging::Plain).is_ok());
    assert_eq!((page(record), teller_page(2, record)), (refused(13), refused(13)));
}

fn refused(rule: u8) -> String {
    format!("REFUSED {rule}\n")
}
