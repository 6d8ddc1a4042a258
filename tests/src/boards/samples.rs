//! The files of `samples/`: honest boards, and for several rules one that drawn judging refuses.
//! Seeds are fixed, so they are the same at every run.

use std::collections::BTreeMap;
use std::path::Path;
use std::{fs, io};

use super::copies::{copy_ballot, copy_opening, put_ballot, record_of, Copied, Slot};
use super::damage::{damaged_by, Forgery};
use super::{board, honest, inputs, Board, Layout, BOTH};
use crate::random::Random;
use crate::reference::judge::Judging;
use crate::reference::page::LONGEST;
use crate::reference::terms::{Edition, Form, Parameters, Scheme, COPIES_STAND, FORMER};
use crate::reference::writer::{Inputs, Secrets};

/// The rules of which a refused board is written.
const RULES: [u8; 9] = [1, 5, 8, 9, 12, 13, 14, 16, 17];

/// Ranked votes of 23 ballots for four candidates: 4 and 3 tie for last, a vote for 4 alone is
/// exhausted, 2 wins in the third round; two are blank, and 302, 122 and 51 spoiled.
pub const RANKED: [u32; 23] = [
    1234, 2, 302, 41, 12, 2143, 0, 31, 1, 24, 423, 122, 13, 21, 342, 1342, 0, 2431, 4, 123, 51, 32,
    213,
];

/// The boards with 01 of document 02's item 5; all others with 01 were stored before it. Those with
/// 0C were made anew by item 8.
pub const OF_COPIES: [&str; 2] = ["equal-inside.board", "refused-21.board"];

/// Names and bytes.
pub fn files() -> Vec<(String, Vec<u8>)> {
    [unnumbered_files(), numbered_files(), files_of_copies()].concat()
}

/// Those that start with 01.
fn unnumbered_files() -> Vec<(String, Vec<u8>)> {
    let random = &mut Random::new(2026);
    let [eight, one] = [(100, 8, 2), (2, 1, 1)].map(|shape| of_shape(random, shape));
    let three = with_votes(random, Form::Unnumbered, 9, &[5, 2, 5]);
    let refused =
        RULES.map(|rule| (format!("refused-{rule}.board"), refused_by(FORMER, random, rule)));
    let [twenty, lists] = [(10, 20, 2), (u32::MAX, 7, 12)].map(|shape| of_shape(random, shape));
    let ranked = with_votes(random, Form::Unnumbered, 1_000_000_000, &RANKED);
    let accepted = [
        ("eight-ballots.board", eight),
        ("one-ballot.board", one),
        ("votes-2-5-5.board", three),
        ("twenty-ballots.board", twenty),
        ("twenty-four-lists.board", lists),
        ("ranked.board", ranked),
    ];
    let accepted = accepted.map(|(name, board)| (name.to_string(), written(&board)));
    accepted.into_iter().chain(refused).collect()
}

/// Those that start with 0C, of seeds of their own, so that the others stay.
fn numbered_files() -> Vec<(String, Vec<u8>)> {
    let random = &mut Random::new(2027);
    let eight = honest(random, Parameters::numbered(2, 100, 8, 2), BOTH);
    let one = honest(random, Parameters::numbered(u32::MAX, 2, 1, 1), BOTH);
    let ranked = with_votes(random, Form::Numbered(0), 1_000_000_000, &RANKED);
    let accepted = [
        ("numbered-eight-ballots.board", eight),
        ("numbered-one-ballot.board", one),
        ("numbered-ranked.board", ranked),
    ];
    let accepted = accepted.map(|(name, board)| (name.to_string(), written(&board)));
    let cut = accepted[0].1[..9].to_vec();
    let refused = [
        ("numbered-refused-1.board", cut),
        ("numbered-refused-2.board", again_where_dice_are_due(random)),
        ("numbered-refused-8.board", refused_by(COPIES_STAND, random, 8)),
        ("numbered-refused-14.board", refused_by(COPIES_STAND, random, 14)),
        ("numbered-refused-13.board", of_another_election(random)),
        ("numbered-refused-21.board", copied_where_none_is_opened(random)),
    ];
    accepted.into_iter().chain(refused.map(|(name, bytes)| (name.to_string(), bytes))).collect()
}

/// One commitment at all six places of a ballot and another at two of the next; a ballot cast again,
/// which but for that is a proof. Of seeds of their own, so that the others stay.
fn files_of_copies() -> Vec<(String, Vec<u8>)> {
    let random = &mut Random::new(2028);
    let mut inside = inputs(random, Parameters::unnumbered(100, 4, 1));
    let opening = inside.ballot_openings(1)[0];
    put_ballot(&mut inside, 1, [opening; 6]);
    copy_opening(&mut inside, Slot { ballot: 2, slot: 0 }, Slot { ballot: 2, slot: 5 });
    let inside = written(&board(random, &inside, BOTH));
    pass_over(random);
    let mut again = inputs(random, Parameters::unnumbered(100, 4, 1));
    copy_ballot(&mut again, 0, 2);
    let again = record_of(random, &again, Judging::Drawn);
    OF_COPIES.map(str::to_string).into_iter().zip([inside, again]).collect()
}

/// The board that was written here before document 02's item 8, as it was: the dice of the next
/// depend on those thrown for it.
fn pass_over(random: &mut Random) {
    let mut place = inputs(random, Parameters::numbered(3, 100, 5, 1));
    copy_opening(&mut place, Slot { ballot: 1, slot: 5 }, Slot { ballot: 4, slot: 0 });
    let secrets = Secrets { scheme: Scheme::Bare, ..Secrets::new(&place) };
    let mask = random.mask(1);
    Forgery::new(secrets, mask).record(random, Judging::Drawn);
}

/// The ballots and lists of another election of the evening.
fn of_another_election(random: &mut Random) -> Vec<u8> {
    let inputs = inputs(random, Parameters::numbered(4, 100, 3, 1));
    let secrets = Secrets { scheme: Form::Numbered(3).scheme(), ..Secrets::new(&inputs) };
    let mask = random.mask(1);
    Forgery::new(secrets, mask).record(random, Judging::Drawn)
}

/// A commitment of the second ballot at a place of the last that is not opened: but for the copy it
/// is a proof.
fn copied_where_none_is_opened(random: &mut Random) -> Vec<u8> {
    let honest = Copied::none(inputs(random, Parameters::numbered(3, 100, 5, 1)));
    let copied = honest.and((1, 5), (4, 0));
    loop {
        let record = copied.posted(random, Judging::Drawn);
        if copied.found_posted(&record).is_ok() {
            return record;
        }
    }
}

/// A board with 0C for 04.
fn again_where_dice_are_due(random: &mut Random) -> Vec<u8> {
    let board = honest(random, Parameters::numbered(0x0C0C_0C0C, 9, 2, 1), BOTH);
    let mut record = board.record();
    record[Layout::new(&board.inputs.parameters).first_dice()] = 0x0C;
    record
}

/// The rule that refuses a board of this name, if one does.
pub fn promised(name: &str) -> Option<u8> {
    let (_, rule) = name.trim_end_matches(".board").rsplit_once("refused-")?;
    Some(rule.parse().expect("a rule's number"))
}

/// The boards that are stored in the folder, by name.
pub fn stored() -> io::Result<BTreeMap<String, Vec<u8>>> {
    let folder = Path::new(env!("CARGO_MANIFEST_DIR")).join("../samples");
    let paths = fs::read_dir(folder)?.map(|entry| Ok(entry?.path()));
    let paths: Vec<_> = paths.collect::<io::Result<_>>()?;
    let boards = paths.iter().filter(|path| path.extension().is_some_and(|kind| kind == "board"));
    boards
        .map(|path| Ok((path.file_name().unwrap().to_string_lossy().into(), fs::read(path)?)))
        .collect()
}

/// An honest board of these M, n and m.
fn of_shape(random: &mut Random, (modulus, n, m): (u32, u32, u32)) -> Board {
    honest(random, Parameters::unnumbered(modulus, n, m), BOTH)
}

/// An honest board of these votes, with two lists.
pub fn with_votes(random: &mut Random, form: Form, modulus: u32, votes: &[u32]) -> Board {
    let parameters = Parameters { form, modulus, n: votes.len() as u32, m: 1 };
    let inputs = Inputs { votes: votes.to_vec(), ..inputs(random, parameters) };
    board(random, &inputs, BOTH)
}

/// A board that the program refuses by this rule, in the newest form of the edition. Those passed
/// over break its rules too: the dice thrown for them depend on their bytes, and the boards behind
/// them on the dice.
fn refused_by(edition: Edition, random: &mut Random, rule: u8) -> Vec<u8> {
    let first = if edition.numbered { 0x0C } else { 0x01 };
    loop {
        let (record, fault) = damaged_by(edition, random, (4, 2), Judging::Drawn);
        let fits = record.first() == Some(&first) && record.len() <= LONGEST;
        if fault.number == rule && fits {
            return record;
        }
    }
}

/// The record of this board as the product's election writes it, from the same inputs and dice.
#[cfg(feature = "linked")]
fn written(board: &Board) -> Vec<u8> {
    let mut buffers = board.parts.each_ref().map(|part| vec![0; part.len()]);
    let mut record = vec![0; board.inputs.parameters.record_length()];
    let table = BOTH.table([&board.parts[1][1..31], &board.parts[2][1..31]], 0, &[]);
    let [one, two, three] = &mut buffers;
    let told = board.inputs.parameters.form.into();
    let buffers: [&mut [u8]; 4] = [one, two, three, &mut record];
    let answer = crate::ffi::election::election(told, &board.inputs, &table, buffers);
    assert_eq!(answer, 0);
    record
}

/// The record of this board.
#[cfg(not(feature = "linked"))]
fn written(board: &Board) -> Vec<u8> {
    board.record()
}
