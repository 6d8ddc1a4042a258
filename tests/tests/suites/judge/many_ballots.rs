//! Boards of more ballots than a byte counts, up to the most: both bytes of every operand count,
//! every position has a mark of its own, and the last ballot and the last opening as much as the
//! first.

use std::sync::OnceLock;

use crate::subject::judge;
use paddockyear_tests::boards::*;
use paddockyear_tests::random::Random;
use paddockyear_tests::reference::judge::{Fault, Judging, JUDGINGS};
use paddockyear_tests::reference::terms::{
    sorted, sum, Commitment, Form, Holder, Opening, Parameters,
};
use paddockyear_tests::reference::writer::Inputs;

const M: u32 = u32::MAX;
/// The most ballots, and so the first position that is none.
const MOST: usize = 4096;

/// An accepted record. Its changes go through `refused`, one at a time.
struct Posted {
    n: usize,
    record: Vec<u8>,
    layout: Layout,
}

impl Posted {
    fn new(random: &mut Random, inputs: &Inputs) -> Self {
        let record = board(random, inputs, BOTH).record();
        Posted { n: inputs.parameters.ballots(), record, layout: Layout::new(&inputs.parameters) }
    }

    fn of_shape(seed: u64, n: u32, m: u32) -> Self {
        Self::of(seed, Parameters::unnumbered(M, n, m))
    }

    fn of(seed: u64, parameters: Parameters) -> Self {
        let random = &mut Random::new(seed);
        let inputs = inputs(random, parameters);
        Self::new(random, &inputs)
    }

    fn operand(&self, place: usize) -> u16 {
        u16::from_be_bytes(self.record[place..][..2].try_into().unwrap())
    }

    /// The position of a ballot in the first compared list.
    fn position(&self, ballot: usize) -> u16 {
        self.operand(self.layout.link(0, ballot) + 4)
    }

    /// The ballot at this position.
    fn ballot_at(&self, position: u16) -> usize {
        (0..self.n).find(|&ballot| self.position(ballot) == position).unwrap()
    }

    /// With these bytes at a place the record has this fault, in the command at `due`.
    #[track_caller]
    fn refused(&self, judging: Judging, (place, bytes): (usize, &[u8]), number: u8, due: usize) {
        let mut record = self.record.clone();
        record[place..][..bytes.len()].copy_from_slice(bytes);
        let fault = Fault { number, place: due };
        assert_eq!(judge(&record, judging), Err(fault), "{bytes:?} at {place}");
    }

    /// The operand at this offset of a command is `due`, and any other that it may be taken for is
    /// refused by rule 4.
    #[track_caller]
    fn operand_counts(&self, judging: Judging, (command, offset): (usize, usize), due: u16) {
        assert_eq!(self.operand(command + offset), due);
        for other in mistaken(due) {
            self.refused(judging, (command + offset, &other.to_be_bytes()), 4, command);
        }
    }
}

/// With as many ballots as there may be, and two lists.
fn largest() -> &'static Posted {
    static POSTED: OnceLock<Posted> = OnceLock::new();
    POSTED.get_or_init(|| Posted::of_shape(130, MOST as u32, 1))
}

/// The same of a numbered election.
fn largest_numbered() -> &'static Posted {
    static POSTED: OnceLock<Posted> = OnceLock::new();
    POSTED.get_or_init(|| Posted::of(141, Parameters::numbered(0xFF00_10FF, M, MOST as u32, 1)))
}

/// Both judgings accept the board of these inputs.
fn accepted(random: &mut Random, inputs: &Inputs) {
    let record = board(random, inputs, BOTH).record();
    for judging in JUDGINGS {
        assert_eq!(judge(&record, judging), Ok(sorted(&inputs.votes)), "{judging:?}");
    }
}

/// Ballots one after the other take positions that are 256 or 1,024 apart.
#[test]
fn positions_that_end_alike() {
    let random = &mut Random::new(131);
    for rows in [4, 16] {
        let place = |j: usize| j % rows * (MOST / rows) + j / rows;
        assert_eq!((place(1), place(rows)), (MOST / rows, 1));
        let parameters = Parameters::unnumbered(M, MOST as u32, 1);
        let inputs = inputs_with_places(random, parameters, place);
        accepted(random, &inputs);
    }
}

/// The marks of far positions are one list's own.
#[test]
fn positions_of_other_lists() {
    let random = &mut Random::new(132);
    let parameters = Parameters::unnumbered(M, 1025, 2);
    let inputs = inputs_with_places(random, parameters, |j| 1024 - j);
    accepted(random, &inputs);
}

#[test]
fn rule_4_entries() {
    let (posted, layout) = (largest(), largest().layout);
    for judging in JUDGINGS {
        for place in FAR_PLACES {
            for list in 0..2 {
                posted.operand_counts(judging, (layout.entry(list, place), 2), place as u16);
            }
        }
    }
}

#[test]
fn rule_4_ballots_of_links() {
    let (posted, layout) = (largest(), largest().layout);
    for place in FAR_PLACES {
        posted.operand_counts(Judging::Plain, (layout.link(0, place), 2), place as u16);
    }
    posted.operand_counts(Judging::Drawn, (layout.link(0, MOST - 1), 2), MOST as u16 - 1);
}

/// The commands behind the second dice that name this ballot, position or index: where they start,
/// and where the operand stands in them.
fn later_commands(posted: &Posted, place: usize) -> [((usize, usize), u16); 4] {
    let (layout, due) = (posted.layout, place as u16);
    [
        ((layout.ballot_half(place), 1), due),
        ((layout.list_half(posted.ballot_at(due), 0), 2), due),
        ((layout.vote(place), 1), due),
        ((layout.full_opening(0, place), 2), due),
    ]
}

#[test]
fn rule_4_later_commands() {
    let posted = Posted::of_shape(133, 1025, 1);
    for place in [255, 256, 1024] {
        for (operand, due) in later_commands(&posted, place) {
            posted.operand_counts(Judging::Plain, operand, due);
        }
    }
    let numbered = Posted::of(142, Parameters::numbered(257, M, 257, 1));
    for place in [255, 256] {
        for (operand, due) in later_commands(&numbered, place) {
            numbered.operand_counts(Judging::Plain, operand, due);
        }
    }
}

/// Of the most ballots' last place, without its high byte and with its bytes exchanged.
#[test]
fn rule_4_last_place() {
    let posted = largest();
    for ((command, offset), due) in later_commands(posted, MOST - 1) {
        assert_eq!(posted.operand(command + offset), due);
        for bytes in [[0x00, 0xFF], [0xFF, 0x0F]] {
            posted.refused(Judging::Drawn, (command + offset, &bytes), 4, command);
        }
    }
}

/// The same in a numbered election, without the high byte.
#[test]
fn rule_4_last_place_numbered() {
    let posted = largest_numbered();
    for ((command, offset), due) in later_commands(posted, MOST - 1) {
        assert_eq!(posted.operand(command + offset), due);
        posted.refused(Judging::Plain, (command + offset, &[0x00, 0xFF]), 4, command);
    }
}

/// A ballot more than there may be, and each of fewer, in the first command of a numbered election.
#[test]
fn rule_3_numbered() {
    let posted = largest_numbered();
    for n in [0u16, 4097, 0x1100, 0x8000, u16::MAX] {
        posted.refused(Judging::Plain, (9, &n.to_be_bytes()), 3, 0);
    }
    for n in [1u16, 256, 1024, 4095] {
        let behind = 12 + 197 * usize::from(n);
        posted.refused(Judging::Plain, (9, &n.to_be_bytes()), 2, behind);
    }
}

/// A commitment knows all of its position: one made for any that it may be taken for is refused, in
/// the opened list and in the compared one.
#[test]
fn rule_13_far_positions() {
    let posted = largest_numbered();
    let layout = &posted.layout;
    let opened = usize::from(posted.record[layout.full_opening(0, 0) + 1]);
    for position in FAR_PLACES {
        let command = layout.full_opening(0, position);
        for other in mistaken(position as u16) {
            let commitment = made_for(posted, command + 4, (opened, other), 0);
            let at = layout.entry_commitment(opened, position, 0);
            posted.refused(Judging::Plain, (at, &commitment), 13, command);
        }
        let ballot = posted.ballot_at(position as u16);
        let side = posted.record[layout.ballot_half(ballot) + 3];
        let command = layout.list_half(ballot, 0);
        let compared = 1 - opened;
        for other in [position as u16 ^ 0x0100, position as u16 ^ 0x0001] {
            let commitment = made_for(posted, command + 4, (compared, other), side);
            let at = layout.entry_commitment(compared, position, side.into());
            posted.refused(Judging::Plain, (at, &commitment), 13, command);
        }
    }
}

/// What the opening at this byte commits to in this list, at another position.
fn made_for(posted: &Posted, at: usize, (list, position): (usize, u16), slot: u8) -> Commitment {
    let bytes = &posted.record[at..][..36];
    let number = u32::from_be_bytes(bytes[32..].try_into().unwrap());
    let opening = Opening { key: bytes[..32].try_into().unwrap(), number };
    let election = u32::from_be_bytes(posted.record[1..5].try_into().unwrap());
    let place = Holder::entry(list, position.into()).slot(slot);
    Form::Numbered(election).scheme().commitment(place, &opening)
}

/// Position n and those above it, also where a position loses no more than a high bit.
#[test]
fn rule_9_positions_beyond() {
    for (seed, n) in (134..).zip(MANY) {
        let posted = Posted::of_shape(seed, n, 1);
        let n = n as u16;
        for ballot in [0, posted.n / 2, posted.n - 1] {
            let own = posted.position(ballot);
            let high = [0x1000, 0x2000, 0x8000].map(|bit| own | bit);
            let command = posted.layout.link(0, ballot);
            for position in [n, n + 1, n + 256, 4096, 4097, u16::MAX].into_iter().chain(high) {
                let position = &position.to_be_bytes();
                posted.refused(Judging::Plain, (command + 4, position), 9, command);
            }
        }
    }
}

/// Each far position is taken once a ballot has it, for the next ballot and for the last.
#[test]
fn rule_9_positions_taken() {
    let (posted, last) = (largest(), MOST - 1);
    let mut checked = 0;
    for position in FAR_PLACES.into_iter().chain([2047, 2048, 3071, 3072]) {
        let position = position as u16;
        let earlier = posted.ballot_at(position);
        for later in [earlier + 1, last].into_iter().filter(|later| earlier < last.min(*later)) {
            let command = posted.layout.link(0, later);
            posted.refused(Judging::Plain, (command + 4, &position.to_be_bytes()), 9, command);
            checked += 1;
        }
    }
    assert!(checked >= 26);
    for posted in [posted, largest_numbered()] {
        let first = posted.position(0);
        let command = posted.layout.link(0, last);
        posted.refused(Judging::Drawn, (command + 4, &first.to_be_bytes()), 9, command);
    }
}

/// A position that differs from a taken one by a byte or a bit alone is free, until its own ballot
/// comes.
#[test]
fn rule_9_positions_not_taken() {
    let posted = largest();
    let mut checked = 0;
    for place in FAR_PLACES.map(|place| place as u16) {
        for other in mistaken(place).into_iter().filter(|&other| usize::from(other) < MOST) {
            let mut ballots = [place, other].map(|position| posted.ballot_at(position));
            ballots.sort_unstable();
            let [earlier, later] = ballots;
            if later > earlier + 1 {
                let early = posted.layout.link(0, earlier + 1) + 4;
                let position = posted.position(later).to_be_bytes();
                let command = posted.layout.link(0, later);
                posted.refused(Judging::Plain, (early, &position), 9, command);
                checked += 1;
            }
        }
    }
    assert!(checked >= 30);
}

/// The last command of each kind with openings: the last byte of a key, and of a number.
#[test]
fn rule_13_last_openings() {
    for posted in [&Posted::of_shape(138, 1025, 1), largest()] {
        let (layout, last) = (posted.layout, posted.n - 1);
        for (command, openings) in [
            (layout.ballot_half(last), 3),
            (layout.list_half(last, 0), 3),
            (layout.full_opening(0, last), 6),
        ] {
            let number = command + 4 + 36 * openings - 1;
            for (judging, place) in [(Judging::Plain, number - 4), (Judging::Drawn, number)] {
                posted.refused(judging, (place, &[posted.record[place] ^ 1]), 13, command);
            }
        }
    }
}

/// t of far ballots; plain judging does not mind that other sides would be drawn.
#[test]
fn rule_14_far_ballots() {
    let posted = largest();
    for ballot in [256, 1024, MOST - 1] {
        let place = posted.layout.link(0, ballot) + 6;
        let t = u32::from_be_bytes(posted.record[place..][..4].try_into().unwrap());
        let other = sum(M, &[t, 1]).to_be_bytes();
        posted.refused(Judging::Plain, (place, &other), 14, posted.layout.list_half(ballot, 0));
    }
}

/// Of votes that all differ, a far one that falls, and one that no opened list has.
#[test]
fn rules_15_and_16_far_votes() {
    let random = &mut Random::new(139);
    let mut inputs = inputs(random, Parameters::unnumbered(M, MOST as u32, 1));
    inputs.votes = random.permutation(MOST).iter().map(|&k| u32::from(k) << 20).collect();
    let posted = Posted::new(random, &inputs);
    let opened = posted.layout.full_opening(0, MOST - 1);
    for index in [256, 1024, MOST - 1] {
        let (command, vote) = (posted.layout.vote(index), (index as u32) << 20);
        let falls = (vote - (1 << 20) - 1).to_be_bytes();
        posted.refused(Judging::Plain, (command + 3, &falls), 15, command);
        posted.refused(Judging::Plain, (command + 3, &(vote + 1).to_be_bytes()), 16, opened);
    }
}

/// Opened lists whose values fall, are all alike, or come round four times.
#[test]
fn votes_in_any_order() {
    let random = &mut Random::new(140);
    let parameters = Parameters::unnumbered(M, MOST as u32, 1);
    for vote in [|j: u32| 1_000_000 - j, |_: u32| M - 1, |j: u32| j % 1024 << 20] {
        let mut inputs = inputs_with_places(random, parameters, |j| j);
        inputs.votes = (0..MOST as u32).map(vote).collect();
        let record = board(random, &inputs, NEITHER).record();
        assert_eq!(judge(&record, Judging::Plain), Ok(sorted(&inputs.votes)));
    }
}
