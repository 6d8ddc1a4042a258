//! Dishonest boards: every way of breaking a rule, alone or together with others, with the mask
//! and sides that drawn judging demands.

use std::collections::BTreeSet;

use crate::boards::{inputs, parameters_by, Layout};
use crate::random::Random;
use crate::reference::drawing::{drawn_mask, drawn_sides, seed};
use crate::reference::judge::{Fault, Judging};
use crate::reference::sha3::sha3_224;
use crate::reference::terms::{
    difference, lists_of, refusal, sum, Edition, Form, Opening, Parameters, MAX_BALLOTS, NOW,
};
use crate::reference::writer::{Inputs, Secrets};

/// A board in the making: what the servers know, and what is done to the bytes.
#[derive(Clone)]
pub struct Forgery {
    pub secrets: Secrets,
    pub mask: u32,
    pub layout: Layout,
    most_ballots: u32,
    edits: Vec<Edit>,
    cut: usize,
    behind: Vec<u8>,
}

/// A change at a place of the record.
#[derive(Clone)]
enum Edit {
    Set(usize, Vec<u8>),
    Flip(usize, u8),
}

impl Edit {
    fn place(&self) -> usize {
        match self {
            Edit::Set(place, _) | Edit::Flip(place, _) => *place,
        }
    }

    fn apply(&self, record: &mut [u8]) {
        match self {
            Edit::Set(place, bytes) => record[*place..][..bytes.len()].copy_from_slice(bytes),
            Edit::Flip(place, bits) => record[*place] ^= bits,
        }
    }
}

impl Forgery {
    pub fn new(secrets: Secrets, mask: u32) -> Self {
        Forgery {
            layout: Layout::new(&secrets.parameters),
            secrets,
            mask,
            most_ballots: MAX_BALLOTS,
            edits: Vec::new(),
            cut: usize::MAX,
            behind: Vec::new(),
        }
    }

    pub fn set(&mut self, place: usize, bytes: &[u8]) {
        self.edits.push(Edit::Set(place, bytes.to_vec()));
    }

    pub fn flip(&mut self, place: usize, bits: u8) {
        self.edits.push(Edit::Flip(place, bits));
    }

    pub fn cut(&mut self, length: usize) {
        self.cut = self.cut.min(length);
    }

    pub fn append(&mut self, bytes: &[u8]) {
        self.behind.extend(bytes);
    }

    /// The record. For drawn judging the dice are thrown until they draw the mask, and the sides
    /// are the drawn ones; later parts follow the changes made to the earlier ones.
    pub fn record(&self, random: &mut Random, judging: Judging) -> Vec<u8> {
        let (n, mask) = (self.secrets.parameters.ballots(), self.mask);
        let mut record = Vec::new();
        self.extend(&mut record, self.secrets.part_one());
        let dice = match judging {
            Judging::Plain => random.dice(),
            Judging::Drawn => dice_for_mask(random, self.secrets.parameters.m, mask, &record),
        };
        self.extend(&mut record, self.secrets.part_two(&dice, mask));
        let dice = random.dice();
        let sides = match judging {
            Judging::Plain => random.sides(n),
            Judging::Drawn => drawn_sides(n, &seed(&dice, &record)),
        };
        self.extend(&mut record, self.secrets.part_three(&dice, mask, &sides));
        record.extend(&self.behind);
        record.truncate(self.cut);
        record
    }

    /// Joins a part and makes the changes that fall into it.
    fn extend(&self, record: &mut Vec<u8>, part: Vec<u8>) {
        let start = record.len();
        record.extend(part);
        let part = start..record.len();
        for edit in self.edits.iter().filter(|edit| part.contains(&edit.place())) {
            edit.apply(record);
        }
    }

    fn list(&self, rank: usize, compared: bool) -> usize {
        lists_of(self.secrets.parameters.m, self.mask, compared)[rank]
    }

    fn modulus(&self) -> u32 {
        self.secrets.parameters.modulus
    }

    fn n(&self) -> usize {
        self.secrets.parameters.ballots()
    }
}

/// Dice that draw this mask behind this prefix. Few throws do where m is small.
fn dice_for_mask(random: &mut Random, m: u32, mask: u32, before: &[u8]) -> Vec<u8> {
    assert!(m <= 4);
    let digits: String = sha3_224(before).iter().map(|byte| format!("{byte:02x}")).collect();
    loop {
        let dice = random.dice();
        let seed = format!("{}{digits}", std::str::from_utf8(&dice).unwrap());
        if drawn_mask(m, &seed) == mask {
            return dice;
        }
    }
}

/// Which command of each kind is hit: the ballot or index, the list and position of 03, the rank
/// of the compared list, the rank of the opened one.
#[derive(Clone, Copy, Debug)]
pub struct Target {
    pub ballot: usize,
    pub list: usize,
    pub position: usize,
    pub rank: usize,
    pub opened: usize,
}

impl Target {
    /// Any target; the ballot has one before it if there are two.
    pub fn any(random: &mut Random, parameters: &Parameters) -> Self {
        let (n, m) = (parameters.ballots(), parameters.m as usize);
        Target {
            ballot: if n == 1 { 0 } else { 1 + random.index(n - 1) },
            list: random.index(2 * m),
            position: random.index(n),
            rank: random.index(m),
            opened: random.index(m),
        }
    }

    /// Where the command with this code starts, the first one's being 01 in either form. Of an
    /// opened list it is the last one.
    pub fn place(&self, code: u8, forgery: &Forgery) -> usize {
        let layout = &forgery.layout;
        match code {
            FIRST => 0,
            0x02 => layout.ballot(self.ballot),
            0x03 => layout.entry(self.list, self.position),
            0x04 => layout.first_dice(),
            0x05 => layout.link(self.rank, self.ballot),
            0x06 => layout.second_dice(),
            0x07 => layout.ballot_half(self.ballot),
            0x08 => layout.list_half(self.ballot, self.rank),
            0x09 => layout.vote(self.ballot),
            0x0A => layout.full_opening(self.opened, forgery.n() - 1),
            0x0B => layout.end(),
            _ => unreachable!("no such command"),
        }
    }
}

/// The first command in a breach, whichever the form.
pub const FIRST: u8 = 0x01;

/// The bytes of each command, its code included.
fn widths(form: Form) -> [usize; 11] {
    [form.width(), 197, 196, 35, 10, 31, 112, 112, 7, 220, 1]
}

#[derive(Clone, Copy)]
enum How {
    /// The record ends before the command.
    Absent,
    /// Another command byte.
    Byte(u8),
    /// So many of the command's bytes are left.
    Left(usize),
    /// Anything else; the command's place is lent.
    Change(fn(&mut Forgery, &Target, usize)),
}

/// One way of breaking one rule in one command.
#[derive(Clone, Copy)]
pub struct Breach {
    pub command: u8,
    pub number: u8,
    pub name: &'static str,
    how: How,
}

impl Breach {
    /// Where the judge finds it, and its turn among the faults of that command.
    fn order(&self, forgery: &Forgery, target: &Target) -> (usize, u8) {
        let place = target.place(self.command, forgery);
        match self.how {
            How::Absent => (place, 0),
            How::Byte(_) => (place, 1),
            How::Left(_) => (place, 2),
            How::Change(_) if self.number == refusal::BEHIND => (place + 1, 0),
            How::Change(_) => (place, 2 + self.number),
        }
    }

    fn apply(&self, forgery: &mut Forgery, target: &Target) {
        let place = target.place(self.command, forgery);
        match self.how {
            How::Absent => forgery.cut(place),
            How::Byte(byte) => forgery.set(place, &[byte]),
            How::Left(bytes) => forgery.cut(place + bytes),
            How::Change(change) => change(forgery, target, place),
        }
    }

    /// Some rules need a ballot before the one that breaks them.
    pub fn possible(&self, parameters: &Parameters) -> bool {
        let needs_two = ["id as before", "id falls", "position taken", "vote falls"];
        let copied = self.number == refusal::COPIED_BALLOT;
        parameters.n > 1 || !copied && !needs_two.contains(&self.name)
    }

    /// Two breaches of one rule in one command may undo each other.
    pub fn goes_with(&self, other: &Breach) -> bool {
        (self.command, self.number) != (other.command, other.number)
    }

    /// Only drawn judging meets it.
    pub fn drawn_only(&self) -> bool {
        [refusal::MASK_DRAWN, refusal::SIDE_DRAWN].contains(&self.number)
    }
}

/// Applies all breaches and answers the fault that the judge must find. The earliest goes last,
/// so that it stands where two change the same bytes.
pub fn breach(forgery: &mut Forgery, target: &Target, breaches: &[Breach]) -> Fault {
    let mut breaches = breaches.to_vec();
    breaches.sort_by_key(|breach| std::cmp::Reverse(breach.order(forgery, target)));
    breaches.iter().for_each(|breach| breach.apply(forgery, target));
    let first = breaches.last().unwrap();
    Fault { number: first.number, place: first.order(forgery, target).0 }
}

/// A random board of either form with one or two faults, and the first of them.
pub fn damaged(random: &mut Random, n: u32, m: u32, judging: Judging) -> (Vec<u8>, Fault) {
    damaged_by(NOW, random, (n, m), judging)
}

/// The same by another edition's rules.
pub fn damaged_by(
    edition: Edition,
    random: &mut Random,
    (n, m): (u32, u32),
    judging: Judging,
) -> (Vec<u8>, Fault) {
    Damaged::any(edition, random, (n, m), judging).record(random, judging)
}

/// Inputs, and one or two ways of breaking a rule on their board.
pub struct Damaged {
    pub inputs: Inputs,
    mask: u32,
    most_ballots: u32,
    target: Target,
    breaches: Vec<Breach>,
}

impl Damaged {
    pub fn any(
        edition: Edition,
        random: &mut Random,
        (n, m): (u32, u32),
        judging: Judging,
    ) -> Self {
        let parameters = parameters_by(edition, random, n, m);
        let inputs = inputs(random, parameters);
        let target = Target::any(random, &parameters);
        let mask = random.mask(parameters.m);
        let mut ways = breaches_by(edition, parameters.form, judging);
        ways.retain(|breach| breach.possible(&parameters));
        let mut breaches = vec![any_breach(random, &ways)];
        let other = any_breach(random, &ways);
        if breaches[0].goes_with(&other) && random.below(2) == 0 {
            breaches.push(other);
        }
        Damaged { inputs, mask, most_ballots: edition.most_ballots, target, breaches }
    }

    /// Its record, and the first of its faults.
    pub fn record(&self, random: &mut Random, judging: Judging) -> (Vec<u8>, Fault) {
        let mut forgery = Forgery::new(Secrets::new(&self.inputs), self.mask);
        forgery.most_ballots = self.most_ballots;
        let fault = breach(&mut forgery, &self.target, &self.breaches);
        (forgery.record(random, judging), fault)
    }
}

/// Any rule that one of these ways breaks, and any of those that do.
fn any_breach(random: &mut Random, ways: &[Breach]) -> Breach {
    let numbers: BTreeSet<u8> = ways.iter().map(|breach| breach.number).collect();
    let number = random.pick(&numbers.into_iter().collect::<Vec<u8>>());
    let ways: Vec<Breach> = ways.iter().copied().filter(|way| way.number == number).collect();
    random.pick(&ways)
}

/// The record with one bit flipped, anywhere.
pub fn flipped(random: &mut Random, record: &[u8]) -> Vec<u8> {
    let mut record = record.to_vec();
    let place = random.index(record.len());
    record[place] ^= 1 << random.below(8);
    record
}

/// Every breach that this judging meets in a record of this form.
pub fn breaches(form: Form, judging: Judging) -> Vec<Breach> {
    breaches_by(NOW, form, judging)
}

/// The same of an edition's rules.
pub fn breaches_by(edition: Edition, form: Form, judging: Judging) -> Vec<Breach> {
    let mut all = byte_breaches(edition, form);
    let copies = if edition.copies { Vec::new() } else { copies() };
    for group in [posting(), copies, dice(), links(), halves(), results()] {
        all.extend(group.into_iter().map(|(command, number, name, change)| Breach {
            command,
            number,
            name,
            how: How::Change(change),
        }));
    }
    all.retain(|breach| judging == Judging::Drawn || !breach.drawn_only());
    all
}

/// Rules 1 and 2 at each command.
fn byte_breaches(edition: Edition, form: Form) -> Vec<Breach> {
    let mut all = Vec::new();
    for (command, width) in (FIRST..).zip(widths(form)) {
        let mut add = |number, name, how| all.push(Breach { command, number, name, how });
        add(refusal::STOPS, "no byte left", How::Absent);
        for byte in bytes_not_due(edition, form, command) {
            add(refusal::NOT_DUE, "byte not due", How::Byte(byte));
        }
        if width > 1 {
            add(refusal::STOPS, "no operand left", How::Left(1));
            add(refusal::STOPS, "last byte missing", How::Left(width - 1));
        }
    }
    all
}

/// Bytes that are refused in the place of a command's code, among them those of the first command.
fn bytes_not_due(edition: Edition, form: Form, command: u8) -> Vec<u8> {
    let code = if command == FIRST { form.code() } else { command };
    let mut bytes = vec![0, code - 1, code + 1, code | 0x80, 0x0C, 0xFF];
    if edition.numbered {
        bytes.push(0x01);
        bytes.retain(|byte| command != FIRST || ![0x01, 0x0C].contains(byte));
    }
    bytes
}

type Row = (u8, u8, &'static str, fn(&mut Forgery, &Target, usize));

/// The first command to 03, and 0B.
fn posting() -> Vec<Row> {
    use refusal::*;
    vec![
        (FIRST, LIMITS, "M = 0", |f, _, _| f.set(f.layout.modulus(), &[0, 0, 0, 0])),
        (FIRST, LIMITS, "M = 1", |f, _, _| f.set(f.layout.modulus(), &[0, 0, 0, 1])),
        (FIRST, LIMITS, "n = 0", |f, _, _| f.set(f.layout.modulus() + 4, &[0, 0])),
        (FIRST, LIMITS, "a ballot too many", |f, _, _| {
            f.set(f.layout.modulus() + 4, &(f.most_ballots as u16 + 1).to_be_bytes());
        }),
        (FIRST, LIMITS, "n = 65,535", |f, _, _| f.set(f.layout.modulus() + 4, &[255, 255])),
        (FIRST, LIMITS, "m = 0", |f, _, _| f.set(f.layout.modulus() + 6, &[0])),
        (FIRST, LIMITS, "m = 13", |f, _, _| f.set(f.layout.modulus() + 6, &[13])),
        (FIRST, LIMITS, "m = 255", |f, _, _| f.set(f.layout.modulus() + 6, &[255])),
        (0x02, ID, "id as before", |f, to, at| {
            let before = f.secrets.ids[to.ballot - 1];
            f.set(at + 1, &before.to_be_bytes());
        }),
        (0x02, ID, "id falls", |f, to, at| {
            // The forerunner is at least 1 and stays above its own.
            let before = f.secrets.ids[to.ballot - 1].max(1);
            f.set(f.layout.ballot(to.ballot - 1) + 1, &before.to_be_bytes());
            f.set(at + 1, &(before - 1).to_be_bytes());
        }),
        (0x03, OPERAND, "list not due", |f, _, at| f.flip(at + 1, 1)),
        (0x03, OPERAND, "list far", |f, _, at| f.flip(at + 1, 0x80)),
        (0x03, OPERAND, "position not due", |f, _, at| f.flip(at + 3, 1)),
        (0x03, OPERAND, "position's high byte", |f, _, at| f.flip(at + 2, 4)),
        (0x0B, BEHIND, "a byte behind", |f, _, _| f.append(&[0x0B])),
        (0x0B, BEHIND, "bytes behind", |f, _, _| f.append(&[0x01; 300])),
    ]
}

/// 02 with a commitment of an earlier ballot.
fn copies() -> Vec<Row> {
    use refusal::COPIED_BALLOT;
    vec![
        (0x02, COPIED_BALLOT, "ballot before, same place", |f, to, _| {
            copy(f, (to.ballot - 1, 0), (to.ballot, 0));
        }),
        (0x02, COPIED_BALLOT, "first ballot, other place", |f, to, _| {
            copy(f, (0, 5), (to.ballot, 2));
        }),
        (0x02, COPIED_BALLOT, "ballot cast again", |f, to, _| {
            (0..6).for_each(|slot| copy(f, (0, slot), (to.ballot, slot)));
        }),
        (0x02, COPIED_BALLOT, "ballot before has it of this one", |f, to, _| {
            copy(f, (to.ballot, 4), (to.ballot - 1, 1));
        }),
    ]
}

/// Posts one ballot's commitment at a place of another's.
fn copy(forgery: &mut Forgery, from: (usize, usize), (ballot, slot): (usize, usize)) {
    let commitment = forgery.secrets.ballot_commitments(from.0)[from.1];
    forgery.set(forgery.layout.ballot_commitment(ballot, slot), &commitment);
}

/// 04 and 06.
fn dice() -> Vec<Row> {
    use refusal::*;
    vec![
        (0x04, DICE, "die 0", |f, _, at| f.set(at + 1, b"0")),
        (0x04, DICE, "die 7", |f, _, at| f.set(at + 30, b"7")),
        (0x04, MASK_SHAPE, "one too many", |f, _, at| {
            let mask = f.mask | (f.mask + 1);
            f.set(at + 31, &mask.to_be_bytes());
        }),
        (0x04, MASK_SHAPE, "one too few", |f, _, at| {
            f.set(at + 31, &fewer(f.mask).to_be_bytes());
        }),
        (0x04, MASK_SHAPE, "bit at 2m", |f, _, at| {
            let mask = fewer(f.mask) | 1 << f.secrets.lists.len();
            f.set(at + 31, &mask.to_be_bytes());
        }),
        (0x04, MASK_SHAPE, "highest bit", |f, _, at| {
            let mask = fewer(f.mask) | 1 << 31;
            f.set(at + 31, &mask.to_be_bytes());
        }),
        (0x04, MASK_DRAWN, "the other lists", |f, _, at| {
            let mask = !f.mask & ((1 << f.secrets.lists.len()) - 1);
            f.set(at + 31, &mask.to_be_bytes());
        }),
        (0x06, DICE, "die 0", |f, _, at| f.set(at + 30, b"0")),
        (0x06, DICE, "die 7", |f, _, at| f.set(at + 1, b"7")),
        (0x06, DICE, "die 255", |f, _, at| f.set(at + 15, &[255])),
    ]
}

/// The mask without its lowest one.
fn fewer(mask: u32) -> u32 {
    mask & (mask - 1)
}

/// 05.
fn links() -> Vec<Row> {
    use refusal::*;
    vec![
        (0x05, OPERAND, "list not due", |f, _, at| f.flip(at + 1, 1)),
        (0x05, OPERAND, "ballot not due", |f, _, at| f.flip(at + 3, 1)),
        (0x05, OPERAND, "ballot's high byte", |f, _, at| f.flip(at + 2, 1)),
        (0x05, POSITION, "position n", |f, _, at| {
            f.set(at + 4, &(f.n() as u16).to_be_bytes());
        }),
        (0x05, POSITION, "position 65,535", |f, _, at| f.set(at + 4, &[255, 255])),
        (0x05, POSITION, "position taken", |f, to, at| {
            let taken = f.secrets.places[f.list(to.rank, true)][to.ballot - 1];
            f.set(at + 4, &(taken as u16).to_be_bytes());
        }),
        (0x05, NUMBER, "t = M", |f, _, at| f.set(at + 6, &f.modulus().to_be_bytes())),
        (0x05, NUMBER, "t highest", |f, _, at| f.set(at + 6, &[255; 4])),
    ]
}

/// 07 and 08.
fn halves() -> Vec<Row> {
    use refusal::*;
    vec![
        (0x07, OPERAND, "ballot not due", |f, _, at| f.flip(at + 2, 1)),
        (0x07, OPERAND, "ballot's high byte", |f, _, at| f.flip(at + 1, 2)),
        (0x07, NUMBER, "first number M", |f, to, _| {
            let modulus = f.modulus();
            put(&mut f.secrets.ballots[to.ballot], 0, modulus);
        }),
        (0x07, NUMBER, "third number highest", |f, to, _| {
            put(&mut f.secrets.ballots[to.ballot], 2, u32::MAX);
        }),
        (0x07, SIDE, "side 2", |f, _, at| f.set(at + 3, &[2])),
        (0x07, SIDE, "side 255", |f, _, at| f.set(at + 3, &[255])),
        (0x07, SIDE_DRAWN, "the other side", |f, _, at| f.flip(at + 3, 1)),
        (0x07, OPENING, "first key", |f, _, at| f.flip(at + 4, 1)),
        (0x07, OPENING, "third key", |f, _, at| f.flip(at + 4 + 72 + 31, 0x80)),
        (0x07, OPENING, "second commitments", |f, to, _| {
            flip_commitments(f, f.layout.ballot(to.ballot) + 5, 1);
        }),
        (0x08, OPERAND, "list not due", |f, _, at| f.flip(at + 1, 1)),
        (0x08, OPERAND, "position not the linked one", |f, _, at| f.flip(at + 3, 1)),
        (0x08, OPERAND, "position's high byte", |f, _, at| f.flip(at + 2, 1)),
        (0x08, NUMBER, "second number M", |f, to, _| {
            let modulus = f.modulus();
            put(linked(f, to), 1, modulus);
        }),
        (0x08, NUMBER, "third number highest", |f, to, _| put(linked(f, to), 2, u32::MAX)),
        (0x08, OPENING, "first key", |f, _, at| f.flip(at + 4, 1)),
        (0x08, OPENING, "third key", |f, _, at| f.flip(at + 4 + 72, 1)),
        (0x08, OPENING, "third commitments", |f, to, _| {
            let list = f.list(to.rank, true);
            let entry = f.layout.entry(list, f.secrets.places[list][to.ballot]);
            flip_commitments(f, entry + 4, 2);
        }),
        (0x08, HALVES, "t above", |f, to, _| shift_t(f, to, 1)),
        (0x08, HALVES, "t below", |f, to, _| {
            let below = f.modulus() - 1;
            shift_t(f, to, below);
        }),
        (0x08, HALVES, "another vote", |f, to, _| {
            // Both halves move while t stays.
            let modulus = f.modulus();
            shift_t(f, to, 0);
            let entry = linked(f, to);
            entry[0].number = sum(modulus, &[entry[0].number, 1]);
            entry[1].number = sum(modulus, &[entry[1].number, 1]);
        }),
    ]
}

fn linked<'a>(forgery: &'a mut Forgery, target: &Target) -> &'a mut [Opening; 6] {
    let list = forgery.list(target.rank, true);
    let place = forgery.secrets.places[list][target.ballot];
    &mut forgery.secrets.lists[list][place]
}

/// Commits to this number on both sides of a row.
fn put(six: &mut [Opening; 6], row: usize, number: u32) {
    six[2 * row].number = number;
    six[2 * row + 1].number = number;
}

/// Changes both commitments of a row.
fn flip_commitments(forgery: &mut Forgery, commitments: usize, row: usize) {
    forgery.flip(commitments + 64 * row, 1);
    forgery.flip(commitments + 64 * row + 63, 0x80);
}

fn shift_t(forgery: &mut Forgery, target: &Target, by: u32) {
    let t = forgery.secrets.t(forgery.list(target.rank, true), target.ballot);
    let t = sum(forgery.modulus(), &[t, by]);
    let link = forgery.layout.link(target.rank, target.ballot);
    forgery.set(link + 6, &t.to_be_bytes());
}

/// 09 and 0A.
fn results() -> Vec<Row> {
    use refusal::*;
    vec![
        (0x09, OPERAND, "index not due", |f, _, at| f.flip(at + 2, 1)),
        (0x09, OPERAND, "index's high byte", |f, _, at| f.flip(at + 1, 1)),
        (0x09, NUMBER, "vote M", |f, _, at| f.set(at + 3, &f.modulus().to_be_bytes())),
        (0x09, NUMBER, "vote highest", |f, _, at| f.set(at + 3, &[255; 4])),
        (0x09, VOTE_FALLS, "vote falls", |f, to, at| {
            let before = f.secrets.votes[to.ballot - 1].max(1);
            f.set(f.layout.vote(to.ballot - 1) + 3, &before.to_be_bytes());
            f.set(at + 3, &(before - 1).to_be_bytes());
        }),
        (0x0A, OPERAND, "list not due", |f, _, at| f.flip(at + 1, 1)),
        (0x0A, OPERAND, "position not due", |f, _, at| f.flip(at + 3, 1)),
        (0x0A, OPERAND, "position's high byte", |f, _, at| f.flip(at + 2, 4)),
        (0x0A, NUMBER, "fifth number M", |f, to, _| {
            let modulus = f.modulus();
            opened(f, to)[4].number = modulus;
        }),
        (0x0A, NUMBER, "sixth number highest", |f, to, _| opened(f, to)[5].number = u32::MAX),
        (0x0A, OPENING, "first key", |f, _, at| f.flip(at + 4, 1)),
        (0x0A, OPENING, "sixth key", |f, _, at| f.flip(at + 4 + 180 + 31, 1)),
        (0x0A, OPENING, "fourth commitment", |f, to, _| {
            let entry = f.layout.entry(f.list(to.opened, false), f.n() - 1);
            f.flip(entry + 4 + 96, 1);
        }),
        (0x0A, OPENED_LIST, "value above", |f, to, _| {
            let modulus = f.modulus();
            let number = &mut opened(f, to)[0].number;
            *number = sum(modulus, &[*number, 1]);
        }),
        (0x0A, OPENED_LIST, "value below", |f, to, _| {
            let modulus = f.modulus();
            let number = &mut opened(f, to)[3].number;
            *number = difference(modulus, *number, 1);
        }),
    ]
}

/// The last entry of the opened list.
fn opened<'a>(forgery: &'a mut Forgery, target: &Target) -> &'a mut [Opening; 6] {
    let list = forgery.list(target.opened, false);
    forgery.secrets.lists[list].last_mut().unwrap()
}
