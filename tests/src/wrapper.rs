//! A safe wrapper of the C faces, as a tablet maker or an election officer would like it: owned
//! values, nothing flat, and a refusal as an error.

use std::error::Error;
use std::fmt;
use std::ops::Range;

use crate::ffi;
use crate::reference::calendar::Date;
use crate::reference::election::DiceTable;
use crate::reference::runoff::{Candidate, MOST_CANDIDATES};
use crate::reference::tablet::SplitVote;
use crate::reference::terms::{Form, Parameters};
use crate::reference::writer::Inputs;

/// The number of the rule that is broken.
#[derive(Clone, Copy, Debug, PartialEq, Eq)]
pub struct Refusal(pub u32);

impl fmt::Display for Refusal {
    fn fmt(&self, f: &mut fmt::Formatter) -> fmt::Result {
        let Refusal(number) = self;
        let rule = RULES.get(*number as usize).filter(|rule| !rule.is_empty());
        write!(f, "rule {number}: {}", rule.unwrap_or(&"no such rule"))
    }
}

impl Error for Refusal {}

/// The papers' words for each number.
const RULES: [&str; 23] = [
    "",
    "the record stops inside a command or before 0B",
    "a command byte that is not due",
    "M, n or m outside its limits",
    "a list, ballot, position or index operand other than the due one",
    "an id not above the one before",
    "a dice byte outside '1' to '6'",
    "mask of the wrong shape",
    "mask not the drawn one",
    "link position n or above, or taken",
    "an opened number, t or vote not below M",
    "side byte above 1",
    "side not the drawn one",
    "opening does not give its commitment",
    "the two halves disagree",
    "announced vote below its forerunner",
    "opened list is no permutation of the announced votes",
    "bytes after 0B",
    "a slice of another length than due",
    "a permutation that is none",
    "the number of candidates outside 1 to 9",
    "a ballot with a commitment equal to one of an earlier ballot, at whichever places",
    "a day that does not exist in 2000 to 2199, or a holiday not after the one before it",
];

fn done(answer: u32) -> Result<(), Refusal> {
    match answer {
        0 => Ok(()),
        number => Err(Refusal(number)),
    }
}

pub type Key = [u8; 32];

/// A vote with the numbers and keys that hide it.
#[derive(Clone, Debug)]
pub struct Ballot {
    pub id: u32,
    pub vote: u32,
    pub shares: [u32; 2],
    pub first_halves: [u32; 3],
    pub keys: [Key; 6],
}

/// A ballot's command, to be posted.
#[derive(Clone, Copy, Debug, PartialEq, Eq)]
pub struct Command(pub [u8; 197]);

/// A ballot's receipt, to be printed.
#[derive(Clone, Copy, Debug, PartialEq, Eq)]
pub struct Receipt(pub [u8; 32]);

/// Casts a ballot of an election of this form.
pub fn cast(form: Form, modulus: u32, ballot: &Ballot) -> Result<(Command, Receipt), Refusal> {
    let split = SplitVote { vote: ballot.vote, shares: ballot.shares, firsts: ballot.first_halves };
    let (mut command, mut receipt) = ([0; 197], [0; 32]);
    let (told, keys) = (form.into(), ballot.keys.concat());
    done(ffi::tablet::tablet(told, modulus, ballot.id, &split, &keys, &mut command, &mut receipt))?;
    Ok((Command(command), Receipt(receipt)))
}

/// One column of a list: the offsets of rows one and two in its incoming order, and where each of
/// its numbers comes from.
#[derive(Clone, Debug)]
pub struct Column {
    pub offsets: Vec<[u32; 2]>,
    pub permutation: Vec<u16>,
}

/// What the mix servers use for one list; first halves and keys by position.
#[derive(Clone, Debug)]
pub struct List {
    pub columns: [Column; 3],
    pub first_halves: Vec<[u32; 3]>,
    pub keys: Vec<[Key; 6]>,
}

/// The election's number if it has one, the ballots cast, and an even number of lists.
#[derive(Clone, Debug)]
pub struct Election {
    pub form: Form,
    pub modulus: u32,
    pub ballots: Vec<Ballot>,
    pub lists: Vec<List>,
}

impl Election {
    fn parameters(&self) -> Parameters {
        let (n, m) = (self.ballots.len() as u32, self.lists.len() as u32 / 2);
        Parameters { form: self.form, modulus: self.modulus, n, m }
    }

    /// In the flat order of document 01.
    fn inputs(&self) -> Inputs {
        let mut inputs = Inputs {
            parameters: self.parameters(),
            ids: self.ballots.iter().map(|ballot| ballot.id).collect(),
            votes: self.ballots.iter().map(|ballot| ballot.vote).collect(),
            numbers: Vec::new(),
            permutations: Vec::new(),
            keys: Vec::new(),
        };
        for ballot in &self.ballots {
            inputs.numbers.extend(ballot.shares);
            inputs.numbers.extend(ballot.first_halves);
            inputs.keys.extend(ballot.keys.as_flattened());
        }
        for list in &self.lists {
            for column in &list.columns {
                inputs.numbers.extend(column.offsets.as_flattened());
                inputs.permutations.extend(&column.permutation);
            }
            inputs.numbers.extend(list.first_halves.as_flattened());
            inputs.keys.extend(list.keys.as_flattened().as_flattened());
        }
        inputs
    }
}

/// Thirty characters of each throw. Mask and sides are drawn where they are not given.
#[derive(Clone, Debug)]
pub struct Throws {
    pub first: Vec<u8>,
    pub mask: Option<u32>,
    pub second: Vec<u8>,
    pub sides: Option<Vec<u8>>,
}

/// What is posted: three parts, and the record that they are.
#[derive(Clone, Debug, PartialEq, Eq)]
pub struct Posted {
    pub parts: [Vec<u8>; 3],
    pub record: Vec<u8>,
}

/// Holds an election; the record is accepted by plain judging, and if both are drawn by drawn
/// judging.
pub fn elect(election: &Election, throws: &Throws) -> Result<Posted, Refusal> {
    let inputs = election.inputs();
    let mut parts = inputs.parameters.part_lengths().map(|length| vec![0; length]);
    let mut record = vec![0; inputs.parameters.record_length()];
    let table = DiceTable {
        mask_given: u32::from(throws.mask.is_some()),
        first_dice: &throws.first,
        mask: throws.mask.unwrap_or(0),
        sides_given: u32::from(throws.sides.is_some()),
        second_dice: &throws.second,
        sides: throws.sides.as_deref().unwrap_or(&[]),
    };
    let told = election.form.into();
    let [one, two, three] = &mut parts;
    done(ffi::election::election(told, &inputs, &table, [one, two, three, &mut record]))?;
    Ok(Posted { parts, record })
}

/// Judges a record, plainly or as drawn.
pub fn judge(record: &[u8], drawn: bool) -> Result<(), Refusal> {
    done(match drawn {
        true => ffi::judge::judge_as_drawn(record),
        false => ffi::judge::judge_plainly(record),
    })
}

/// What a voter learns of a receipt.
#[derive(Clone, Copy, Debug, PartialEq, Eq)]
pub enum Found {
    AsPrinted,
    Otherwise,
    NotPosted,
}

/// Reads all ballots.
pub fn check_receipt(record: &[u8], receipt: &Receipt) -> Result<Found, Refusal> {
    found(ffi::results::check_receipt(record, &receipt.0))
}

/// Stops at the first ballot whose id is the receipt's or larger; what stands behind it is not
/// looked at.
pub fn look_up(record: &[u8], receipt: &Receipt) -> Result<Found, Refusal> {
    found(ffi::results::look_up(record, &receipt.0))
}

fn found(answer: u32) -> Result<Found, Refusal> {
    match answer {
        ffi::results::AS_PRINTED => Ok(Found::AsPrinted),
        ffi::results::POSTED_OTHERWISE => Ok(Found::Otherwise),
        ffi::results::NOT_POSTED => Ok(Found::NotPosted),
        number => Err(Refusal(number)),
    }
}

/// The votes that an accepted record announces, rising.
pub fn announced_votes(record: &[u8]) -> Result<Vec<u32>, Refusal> {
    judge(record, false)?;
    let n = if record[0] == 0x0C { [record[9], record[10]] } else { [record[5], record[6]] };
    let mut votes = vec![0; usize::from(u16::from_be_bytes(n))];
    done(ffi::results::announced_votes(record, &mut votes))?;
    Ok(votes)
}

/// Each vote that an accepted record announces, rising, and how often.
pub fn tally(record: &[u8]) -> Result<Vec<(u32, u64)>, Refusal> {
    let votes = announced_votes(record)?;
    let (mut values, mut counts) = (vec![0; votes.len()], vec![0; votes.len()]);
    let mut pairs = 0;
    done(ffi::results::tally(&votes, &mut values, &mut counts, &mut pairs))?;
    Ok(values.into_iter().zip(counts).take(pairs as usize).collect())
}

/// How the ranked votes of a record were counted.
#[derive(Clone, Debug, PartialEq, Eq)]
pub struct Runoff {
    pub winner: Option<u32>,
    pub blank: u64,
    pub spoiled: u64,
    pub candidates: Vec<Ranked>,
}

/// A candidate's count in the last round in which it stood, and the round in which it left.
#[derive(Clone, Copy, Debug, PartialEq, Eq)]
pub struct Ranked {
    pub count: u64,
    pub left: Option<u32>,
}

/// The instant runoff of the votes that an accepted record announces.
pub fn runoff(record: &[u8], candidates: u32) -> Result<Runoff, Refusal> {
    let votes = announced_votes(record)?;
    let length = candidates.min(MOST_CANDIDATES) as usize; // more are refused whatever the table
    let mut table = vec![Candidate { count: 0, left: 0 }; length];
    let (mut winner, mut counts) = (0, [0; 2]);
    done(ffi::runoff::runoff(&votes, candidates, &mut table, &mut winner, &mut counts))?;
    let number = |number: u32| (number != 0).then_some(number);
    let ranked = |entry: Candidate| Ranked { count: entry.count, left: number(entry.left) };
    let [blank, spoiled] = counts;
    let candidates = table.into_iter().map(ranked).collect();
    Ok(Runoff { winner: number(winner), blank, spoiled, candidates })
}

/// An election's windows in minutes from 2000-01-01 00:00.
#[derive(Clone, Debug, PartialEq, Eq)]
pub struct Calendar {
    pub polling: Range<u64>,
    pub first_dice: Range<u64>,
    pub second_dice: Range<u64>,
    pub objections: Range<u64>,
}

/// What is open.
#[derive(Clone, Copy, Debug, PartialEq, Eq)]
pub enum Window {
    Polling,
    FirstDice,
    SecondDice,
    Objections,
}

/// The windows of an election on this day; the holidays are rising.
pub fn calendar(election: Date, holidays: &[Date]) -> Result<Calendar, Refusal> {
    let mut windows = [0; 8];
    done(ffi::calendar::calendar(election, Some(&listed(holidays)), &mut windows))?;
    let [a, b, c, d, e, f, g, h] = windows;
    Ok(Calendar { polling: a..b, first_dice: c..d, second_dice: e..f, objections: g..h })
}

/// What is open at a minute, of an election on this day.
pub fn window_at(
    election: Date,
    holidays: &[Date],
    minute: u64,
) -> Result<Option<Window>, Refusal> {
    let mut window = 0;
    done(ffi::calendar::window_at(election, Some(&listed(holidays)), minute, &mut window))?;
    Ok(match window {
        1 => Some(Window::Polling),
        2 => Some(Window::FirstDice),
        3 => Some(Window::SecondDice),
        4 => Some(Window::Objections),
        _ => None,
    })
}

/// As numbers. 0, which is no day, stands for a date whose number would be another's.
fn listed(holidays: &[Date]) -> Vec<u32> {
    let fits = |date: &Date| date.year < 10_000 && date.month < 100 && date.day < 100;
    let number = |date: &Date| if fits(date) { date.number() } else { 0 };
    holidays.iter().map(number).collect()
}
