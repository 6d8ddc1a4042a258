//! The scrutineer's box: plain and drawn judging, command by command.

use super::drawing::{drawn_mask, drawn_side, seed};
use super::terms::*;

/// Plain judging takes mask and sides as posted, drawn judging demands the drawn ones.
#[derive(Clone, Copy, Debug, PartialEq, Eq)]
pub enum Judging {
    Plain,
    Drawn,
}

pub const JUDGINGS: [Judging; 2] = [Judging::Plain, Judging::Drawn];

/// The first broken rule, and where its command starts; for 17 the byte behind 0B, and where no
/// byte is left the record's length.
#[derive(Clone, Copy, Debug, PartialEq, Eq)]
pub struct Fault {
    pub number: u8,
    pub place: usize,
}

/// Reads commands one after the other.
pub struct Reader<'a> {
    record: &'a [u8],
    next: usize,
}

impl<'a> Reader<'a> {
    pub fn new(record: &'a [u8]) -> Self {
        Reader { record, next: 0 }
    }

    /// The command due next, `width` bytes of operands behind its byte.
    fn command(&mut self, code: u8, width: usize) -> Result<Command<'a>, Fault> {
        let place = self.next;
        let refused = |number| Err(Fault { number, place });
        match self.record[place..].split_first() {
            None => refused(refusal::STOPS),
            Some((byte, _)) if *byte != code => refused(refusal::NOT_DUE),
            Some((_, rest)) if rest.len() < width => refused(refusal::STOPS),
            Some((_, rest)) => {
                self.next += 1 + width;
                Ok(Command { place, operands: &rest[..width] })
            }
        }
    }
}

/// One command's operands, taken from the front.
struct Command<'a> {
    place: usize,
    operands: &'a [u8],
}

impl<'a> Command<'a> {
    fn take(&mut self, width: usize) -> &'a [u8] {
        let (operand, rest) = self.operands.split_at(width);
        self.operands = rest;
        operand
    }

    /// An operand of at most four bytes, most significant first.
    fn number(&mut self, width: usize) -> u32 {
        self.take(width).iter().fold(0, |value, &byte| value << 8 | u32::from(byte))
    }

    fn commitments(&mut self) -> [Commitment; 6] {
        std::array::from_fn(|_| self.take(32).try_into().unwrap())
    }

    fn openings<const COUNT: usize>(&mut self) -> [Opening; COUNT] {
        std::array::from_fn(|_| Opening {
            key: self.take(32).try_into().unwrap(),
            number: self.number(4),
        })
    }

    fn demand(&self, kept: bool, number: u8) -> Result<(), Fault> {
        match kept {
            true => Ok(()),
            false => Err(Fault { number, place: self.place }),
        }
    }
}

#[derive(Clone, Copy)]
struct Link {
    position: u32,
    t: u32,
}

/// The first command: 01, or 0C with the election's number before M.
pub fn parameters(reader: &mut Reader, edition: Edition) -> Result<Parameters, Fault> {
    let (mut command, form) = match reader.record.first() {
        Some(0x0C) if edition.numbered => {
            let mut command = reader.command(0x0C, 11)?;
            let election = command.number(4);
            (command, Form::Numbered(election))
        }
        _ => (reader.command(0x01, 7)?, Form::Unnumbered),
    };
    let (modulus, n, m) = (command.number(4), command.number(2), command.number(1));
    let parameters = Parameters { form, modulus, n, m };
    command.demand(parameters.within(edition.most_ballots), refusal::LIMITS)?;
    Ok(parameters)
}

/// A ballot as posted.
pub struct PostedBallot {
    pub id: u32,
    pub commitments: [Commitment; 6],
}

/// One command 02, but for copies; `before` is the id before it, if there is one.
pub fn ballot(reader: &mut Reader, before: Option<u32>) -> Result<PostedBallot, Fault> {
    let mut command = reader.command(0x02, 196)?;
    let ballot = PostedBallot { id: command.number(4), commitments: command.commitments() };
    command.demand(before.is_none_or(|before| before < ballot.id), refusal::ID)?;
    Ok(ballot)
}

/// The commands 02. Whether one copies an earlier one is asked last in it, where copies do not
/// stand.
pub fn ballots(
    reader: &mut Reader,
    parameters: &Parameters,
    copies: bool,
) -> Result<Vec<PostedBallot>, Fault> {
    let (mut ballots, mut earlier) = (Vec::new(), EarlierBallots::default());
    for _ in 0..parameters.n {
        let place = reader.next;
        let before = ballots.last().map(|before: &PostedBallot| before.id);
        let ballot = ballot(reader, before)?;
        if earlier.copied_by(&ballot.commitments) && !copies {
            return Err(Fault { number: refusal::COPIED_BALLOT, place });
        }
        ballots.push(ballot);
    }
    Ok(ballots)
}

struct Judge<'a> {
    reader: Reader<'a>,
    judging: Judging,
    parameters: Parameters,
    scheme: Scheme,
}

impl Judge<'_> {
    /// Whether the openings give the commitments that are posted at these places.
    fn give(&self, openings: &[Opening], places: &[Place], posted: &[Commitment]) -> bool {
        let given = openings.iter().zip(places);
        given
            .map(|(opening, &place)| self.scheme.commitment(place, opening))
            .eq(posted.iter().copied())
    }

    fn below_modulus(&self, openings: &[Opening]) -> bool {
        openings.iter().all(|opening| opening.number < self.parameters.modulus)
    }

    /// The commands 03, list by list.
    fn lists(&mut self) -> Result<Vec<Vec<[Commitment; 6]>>, Fault> {
        let (n, lists) = (self.parameters.n, self.parameters.lists() as u32);
        (0..lists).map(|list| (0..n).map(|at| self.entry(list, at)).collect()).collect()
    }

    fn entry(&mut self, list: u32, position: u32) -> Result<[Commitment; 6], Fault> {
        let mut command = self.reader.command(0x03, 195)?;
        let named = (command.number(1), command.number(2));
        command.demand(named == (list, position), refusal::OPERAND)?;
        Ok(command.commitments())
    }

    /// Command 04: the mask.
    fn first_dice(&mut self) -> Result<u32, Fault> {
        let m = self.parameters.m;
        let mut command = self.reader.command(0x04, 34)?;
        let dice = command.take(DICE);
        let mask = command.number(4);
        command.demand(dice.iter().all(die_is_fair), refusal::DICE)?;
        command.demand(mask_stands(m, mask), refusal::MASK_SHAPE)?;
        if self.judging == Judging::Drawn {
            let seed = seed(dice, &self.reader.record[..command.place]);
            command.demand(mask == drawn_mask(m, &seed), refusal::MASK_DRAWN)?;
        }
        Ok(mask)
    }

    /// One list's commands 05, by ballot.
    fn links(&mut self, list: usize) -> Result<Vec<Link>, Fault> {
        let mut links: Vec<Link> = Vec::new();
        for ballot in 0..self.parameters.n {
            let mut command = self.reader.command(0x05, 9)?;
            let named = (command.number(1), command.number(2));
            let link = Link { position: command.number(2), t: command.number(4) };
            let taken = links.iter().any(|other| other.position == link.position);
            command.demand(named == (list as u32, ballot), refusal::OPERAND)?;
            command.demand(link.position < self.parameters.n && !taken, refusal::POSITION)?;
            command.demand(link.t < self.parameters.modulus, refusal::NUMBER)?;
            links.push(link);
        }
        Ok(links)
    }

    /// Command 06: the second Q where it is needed.
    fn second_dice(&mut self) -> Result<Option<String>, Fault> {
        let mut command = self.reader.command(0x06, DICE)?;
        let dice = command.take(DICE);
        command.demand(dice.iter().all(die_is_fair), refusal::DICE)?;
        let before = &self.reader.record[..command.place];
        Ok((self.judging == Judging::Drawn).then(|| seed(dice, before)))
    }

    /// Command 07: the side and its three numbers.
    fn ballot_half(
        &mut self,
        ballot: usize,
        posted: &PostedBallot,
        seed: &Option<String>,
    ) -> Result<(u8, [u32; 3]), Fault> {
        let mut command = self.reader.command(0x07, 111)?;
        let (named, side) = (command.number(2), command.number(1) as u8);
        let openings: [Opening; 3] = command.openings();
        command.demand(named == ballot as u32, refusal::OPERAND)?;
        command.demand(self.below_modulus(&openings), refusal::NUMBER)?;
        command.demand(side <= 1, refusal::SIDE)?;
        if let Some(seed) = seed {
            command.demand(side == drawn_side(ballot, seed), refusal::SIDE_DRAWN)?;
        }
        let places = of_side(&Holder::Ballot { id: posted.id }.places(), side);
        let due = of_side(&posted.commitments, side);
        command.demand(self.give(&openings, &places, &due), refusal::OPENING)?;
        Ok((side, openings.map(|opening| opening.number)))
    }

    /// Command 08 of one list, beside the ballot's half.
    fn list_half(
        &mut self,
        list: usize,
        link: Link,
        entries: &[[Commitment; 6]],
        half: (u8, [u32; 3]),
    ) -> Result<(), Fault> {
        let modulus = self.parameters.modulus;
        let (side, ballot_numbers) = half;
        let mut command = self.reader.command(0x08, 111)?;
        let named = (command.number(1), command.number(2));
        let openings: [Opening; 3] = command.openings();
        let numbers = openings.map(|opening| opening.number);
        let position = link.position as usize;
        let places = of_side(&Holder::entry(list, position).places(), side);
        let due = of_side(&entries[position], side);
        command.demand(named == (list as u32, link.position), refusal::OPERAND)?;
        command.demand(self.below_modulus(&openings), refusal::NUMBER)?;
        command.demand(self.give(&openings, &places, &due), refusal::OPENING)?;
        let agree = halves_agree(modulus, side, ballot_numbers, numbers, link.t);
        command.demand(agree, refusal::HALVES)
    }

    /// The commands 09.
    fn votes(&mut self) -> Result<Vec<u32>, Fault> {
        let mut votes = Vec::new();
        for index in 0..self.parameters.n {
            let mut command = self.reader.command(0x09, 6)?;
            let (named, vote) = (command.number(2), command.number(4));
            command.demand(named == index, refusal::OPERAND)?;
            command.demand(vote < self.parameters.modulus, refusal::NUMBER)?;
            let falls = votes.last().is_some_and(|before| vote < *before);
            command.demand(!falls, refusal::VOTE_FALLS)?;
            votes.push(vote);
        }
        Ok(votes)
    }

    /// One list's commands 0A; the last one shows whether its values permute the votes.
    fn opened_list(
        &mut self,
        list: usize,
        entries: &[[Commitment; 6]],
        votes: &[u32],
    ) -> Result<(), Fault> {
        let mut values = Vec::new();
        for (position, commitments) in entries.iter().enumerate() {
            let mut command = self.reader.command(0x0A, 219)?;
            let named = (command.number(1), command.number(2));
            let openings: [Opening; 6] = command.openings();
            command.demand(named == (list as u32, position as u32), refusal::OPERAND)?;
            command.demand(self.below_modulus(&openings), refusal::NUMBER)?;
            let places = Holder::entry(list, position).places();
            command.demand(self.give(&openings, &places, commitments), refusal::OPENING)?;
            values.push(sum(self.parameters.modulus, &openings.map(|opening| opening.number)));
            let last = values.len() == votes.len();
            command.demand(!last || is_permutation_of(&values, votes), refusal::OPENED_LIST)?;
        }
        Ok(())
    }

    /// Command 0B, and nothing behind it.
    fn end(&mut self) -> Result<(), Fault> {
        self.reader.command(0x0B, 0)?;
        let place = self.reader.next;
        match place == self.reader.record.len() {
            true => Ok(()),
            false => Err(Fault { number: refusal::BEHIND, place }),
        }
    }
}

/// The announced votes of an accepted record, or its first fault.
pub fn judge(record: &[u8], judging: Judging) -> Result<Vec<u32>, Fault> {
    judge_by(NOW, record, judging)
}

/// The same by another edition.
pub fn judge_by(edition: Edition, record: &[u8], judging: Judging) -> Result<Vec<u32>, Fault> {
    let mut reader = Reader::new(record);
    let parameters = parameters(&mut reader, edition)?;
    let ballots = ballots(&mut reader, &parameters, edition.copies)?;
    let scheme = edition.scheme(parameters.form);
    let mut judge = Judge { reader, judging, parameters, scheme };
    let lists = judge.lists()?;
    let mask = judge.first_dice()?;
    let compared = lists_of(parameters.m, mask, true);
    let links: Vec<Vec<Link>> =
        compared.iter().map(|&list| judge.links(list)).collect::<Result<_, _>>()?;
    let seed = judge.second_dice()?;
    for (j, ballot) in ballots.iter().enumerate() {
        let half = judge.ballot_half(j, ballot, &seed)?;
        for (&list, links) in compared.iter().zip(&links) {
            judge.list_half(list, links[j], &lists[list], half)?;
        }
    }
    let votes = judge.votes()?;
    for list in lists_of(parameters.m, mask, false) {
        judge.opened_list(list, &lists[list], &votes)?;
    }
    judge.end()?;
    Ok(votes)
}
