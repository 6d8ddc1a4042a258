//! Commitments that know their place: with 0C one that was made for another slot, list, position,
//! ballot or election is refused by 13 where it is opened, and nowhere else; with 01 it stands.

use std::collections::BTreeSet;

use crate::subject::judge;
use paddockyear_tests::boards::damage::{breach, breaches, Forgery, Target};
use paddockyear_tests::boards::*;
use paddockyear_tests::random::Random;
use paddockyear_tests::reference::judge::{Fault, Judging, JUDGINGS};
use paddockyear_tests::reference::terms::*;
use paddockyear_tests::reference::writer::Secrets;

const M: u32 = 100;

/// Every form with every judging.
fn ways() -> impl Iterator<Item = (Form, Judging)> {
    FORMS.into_iter().flat_map(|form| JUDGINGS.map(|judging| (form, judging)))
}

/// A ballot by its index, or an entry.
#[derive(Clone, Copy, Debug, PartialEq, Eq, PartialOrd, Ord)]
enum Owner {
    Ballot(usize),
    Entry(usize, usize),
}

use Owner::{Ballot, Entry};

/// A board in the making, and what was posted at places for which it was not made.
struct Moves {
    forgery: Forgery,
    moved: Vec<(Owner, usize)>,
}

impl Moves {
    fn of(random: &mut Random, parameters: Parameters) -> Self {
        let secrets = Secrets::new(&inputs(random, parameters));
        let mask = random.mask(parameters.m);
        Moves { forgery: Forgery::new(secrets, mask), moved: Vec::new() }
    }

    fn six(&mut self, owner: Owner) -> &mut [Opening; 6] {
        match owner {
            Ballot(ballot) => &mut self.forgery.secrets.ballots[ballot],
            Entry(list, position) => &mut self.forgery.secrets.lists[list][position],
        }
    }

    fn holder(&self, owner: Owner) -> Holder {
        match owner {
            Ballot(ballot) => Holder::Ballot { id: self.forgery.secrets.ids[ballot] },
            Entry(list, position) => Holder::entry(list, position),
        }
    }

    /// Posts what an opening commits to by this scheme at another place.
    fn post(&mut self, at: (Owner, usize), scheme: Scheme, place: Place) {
        let (owner, slot) = at;
        let commitment = scheme.commitment(place, &self.six(owner)[slot]);
        let byte = match owner {
            Ballot(ballot) => self.forgery.layout.ballot_commitment(ballot, slot),
            Entry(list, position) => self.forgery.layout.entry_commitment(list, position, slot),
        };
        self.forgery.set(byte, &commitment);
        self.moved.push(at);
    }

    /// The opening stays, and its commitment was made for another place of the same election.
    fn made_for(&mut self, owner: Owner, slot: usize, place: Place) {
        let scheme = self.forgery.secrets.scheme;
        self.post((owner, slot), scheme, place);
    }

    /// Two openings change places, and their commitments go with them.
    fn exchange(&mut self, one: (Owner, usize), other: (Owner, usize)) {
        let [first, second] = [one, other].map(|(owner, slot)| self.six(owner)[slot]);
        self.six(one.0)[one.1] = second;
        self.six(other.0)[other.1] = first;
        let places = [one, other].map(|(owner, slot)| self.holder(owner).slot(slot as u8));
        self.made_for(one.0, one.1, places[1]);
        self.made_for(other.0, other.1, places[0]);
    }

    /// The same of all six.
    fn exchange_all(&mut self, one: Owner, other: Owner) {
        (0..6).for_each(|slot| self.exchange((one, slot), (other, slot)));
    }

    /// Two entries of a list change places, and the links follow them.
    fn exchange_entries(&mut self, list: usize, [one, other]: [usize; 2]) {
        self.exchange_all(Entry(list, one), Entry(list, other));
        for place in &mut self.forgery.secrets.places[list] {
            *place = match *place {
                place if place == one => other,
                place if place == other => one,
                place => place,
            };
        }
    }

    /// Where a slot is opened on this record, if it is.
    fn opened_at(&self, record: &[u8], (owner, slot): (Owner, usize)) -> Option<usize> {
        let Forgery { secrets, mask, layout, .. } = &self.forgery;
        let rank = |list: usize, compared| {
            lists_of(secrets.parameters.m, *mask, compared).iter().position(|&l| l == list)
        };
        let (half, ballot) = match owner {
            Ballot(ballot) => (layout.ballot_half(ballot), ballot),
            Entry(list, position) => match rank(list, true) {
                None => return Some(layout.full_opening(rank(list, false).unwrap(), position)),
                Some(rank) => {
                    let linked = |place: &usize| *place == position;
                    let ballot = secrets.places[list].iter().position(linked).unwrap();
                    (layout.list_half(ballot, rank), ballot)
                }
            },
        };
        (usize::from(record[layout.ballot_half(ballot) + 3]) == slot % 2).then_some(half)
    }

    /// What is due on this record: 13 at the first moved commitment that is opened, if their places
    /// are known.
    fn due(&self, record: &[u8], known: bool) -> Result<Vec<u32>, Fault> {
        let opened = self.moved.iter().filter_map(|&moved| self.opened_at(record, moved));
        match opened.min().filter(|_| known) {
            Some(place) => Err(Fault { number: 13, place }),
            None => Ok(self.forgery.secrets.votes.clone()),
        }
    }

    /// Judges it; whether it was accepted.
    #[track_caller]
    fn check(&self, random: &mut Random, judging: Judging) -> bool {
        let record = self.forgery.record(random, judging);
        let form = self.forgery.secrets.parameters.form;
        let due = self.due(&record, form != Form::Unnumbered);
        assert_eq!(judge(&record, judging), due, "{form:?} {judging:?} {:?}", self.moved);
        due.is_ok()
    }
}

/// Makes the moves on boards of three ballots, in every way, each on several, since it depends on
/// mask and sides what is opened: for which forms, with 01 or not, there were accepted ones and
/// others.
#[track_caller]
fn check_moves(random: &mut Random, moves: impl Fn(&mut Moves)) -> BTreeSet<(bool, bool)> {
    let mut met = BTreeSet::new();
    for (form, judging) in ways() {
        for _ in 0..4 {
            let mut board = Moves::of(random, Parameters { form, modulus: M, n: 3, m: 1 });
            moves(&mut board);
            met.insert((form == Form::Unnumbered, board.check(random, judging)));
        }
    }
    met
}

/// Owners of every kind: ballots, and entries of both lists, of which one is compared.
const OWNERS: [Owner; 5] = [Ballot(0), Ballot(2), Entry(0, 0), Entry(1, 0), Entry(1, 2)];

/// Every two slots of a ballot or entry exchanged, openings and commitments: t and the values fit.
/// What is not opened is not found.
#[test]
fn slots_exchanged() {
    let random = &mut Random::new(700);
    let mut met = BTreeSet::new();
    for owner in OWNERS {
        for (one, other) in (1..6).flat_map(|b| (0..b).map(move |a| (a, b))) {
            met.extend(check_moves(random, |board| board.exchange((owner, one), (owner, other))));
        }
    }
    assert_eq!(met, BTreeSet::from([(true, true), (false, false), (false, true)]));
}

/// A whole ballot or entry with its slots turned.
#[test]
fn slots_turned() {
    let random = &mut Random::new(701);
    for owner in OWNERS {
        for turn in 1..6 {
            let met = check_moves(random, |board| {
                board.six(owner).rotate_left(turn);
                for slot in 0..6 {
                    let place = board.holder(owner).slot(((slot + turn) % 6) as u8);
                    board.made_for(owner, slot, place);
                }
            });
            assert_eq!(met, BTreeSet::from([(true, true), (false, false)]));
        }
    }
}

/// Two ballots exchanged under their ids, and their links with them.
#[test]
fn ballots_exchanged() {
    let random = &mut Random::new(702);
    for (one, other) in [(0, 1), (0, 2), (1, 2)] {
        let met = check_moves(random, |board| {
            board.exchange_all(Ballot(one), Ballot(other));
            let places = &mut board.forgery.secrets.places;
            places.iter_mut().for_each(|places| places.swap(one, other));
        });
        assert_eq!(met, BTreeSet::from([(true, true), (false, false)]));
    }
}

/// Two entries of a list exchanged, and the links with them: another permutation.
#[test]
fn positions_exchanged() {
    let random = &mut Random::new(703);
    for (list, pair) in [(0, [0, 1]), (0, [0, 2]), (1, [1, 2]), (1, [0, 2])] {
        let met = check_moves(random, |board| board.exchange_entries(list, pair));
        assert_eq!(met, BTreeSet::from([(true, true), (false, false)]));
    }
}

/// Both lists exchanged, and the links with them.
#[test]
fn lists_exchanged() {
    let random = &mut Random::new(704);
    let met = check_moves(random, |board| {
        (0..3).for_each(|position| board.exchange_all(Entry(0, position), Entry(1, position)));
        board.forgery.secrets.places.swap(0, 1);
    });
    assert_eq!(met, BTreeSet::from([(true, true), (false, false)]));
}

/// Entries with the openings and commitments of the ballot that they come from.
#[test]
fn ballots_in_lists() {
    let random = &mut Random::new(705);
    for list in [0, 1] {
        let met = check_moves(random, |board| {
            for ballot in 0..3 {
                let owner = Entry(list, board.forgery.secrets.places[list][ballot]);
                *board.six(owner) = *board.six(Ballot(ballot));
                let places = board.holder(Ballot(ballot)).places();
                (0..6).for_each(|slot| board.made_for(owner, slot, places[slot]));
            }
        });
        assert_eq!(met, BTreeSet::from([(true, true), (false, false)]));
    }
}

/// A list that has the openings and commitments of the other, entry for entry.
#[test]
fn a_list_again() {
    let random = &mut Random::new(706);
    for (from, to) in [(0, 1), (1, 0)] {
        let met = check_moves(random, |board| {
            let secrets = &mut board.forgery.secrets;
            secrets.places[to] = secrets.places[from].clone();
            secrets.lists[to] = secrets.lists[from].clone();
            for position in 0..3 {
                let places = board.holder(Entry(from, position)).places();
                (0..6).for_each(|slot| board.made_for(Entry(to, position), slot, places[slot]));
            }
        });
        assert_eq!(met, BTreeSet::from([(true, true), (false, false)]));
    }
}

/// Ballots' commitments in a list, or a list's in the ballots, with the ballot's id as position and
/// the position as id: what tells them apart is that a ballot has no list.
#[test]
fn positions_as_ids() {
    let random = &mut Random::new(707);
    for (owner, holder) in [
        (Entry(0, 2), Holder::Ballot { id: 2 }),
        (Entry(1, 0), Holder::Ballot { id: 0 }),
        (Ballot(2), Holder::entry(0, 2)),
        (Ballot(1), Holder::entry(1, 1)),
        (Ballot(0), Holder::entry(0, 0)),
        (Ballot(0), Holder::entry(254, 0)),
    ] {
        for slot in 0..6 {
            check_moves(random, |board| {
                board.forgery.secrets.ids = vec![0, 1, 2];
                board.made_for(owner, slot, holder.slot(slot as u8));
            });
        }
    }
}

/// A place with one bit of slot, list, and id or position changed; a ballot's list is 255.
fn changed(holder: Holder, slot: usize, bit: usize) -> Place {
    let (list, index) = match holder {
        Holder::Ballot { id } => (255, id),
        Holder::Entry { list, position } => (list, position),
    };
    let [.., in_slot, in_list, a, b, c, d] = (1u64 << bit).to_be_bytes();
    let position = index ^ u32::from_be_bytes([a, b, c, d]);
    Holder::Entry { list: list ^ in_list, position }.slot(slot as u8 ^ in_slot)
}

/// One commitment made for a place that differs in one bit: of slot, list, id or position.
#[test]
fn every_bit_of_a_place() {
    let random = &mut Random::new(708);
    for (owner, slot) in OWNERS.into_iter().flat_map(|owner| (0..6).map(move |slot| (owner, slot)))
    {
        let mut met = BTreeSet::new();
        for (bit, judging) in (0..48).zip(JUDGINGS.into_iter().cycle()) {
            let mut board = Moves::of(random, Parameters::numbered(7, M, 3, 1));
            let place = changed(board.holder(owner), slot, bit);
            board.made_for(owner, slot, place);
            met.insert(board.check(random, judging));
        }
        assert!(met.contains(&false), "{owner:?} {slot}");
    }
}

/// One commitment of another election, with each bit of its number.
#[test]
fn commitments_of_another_election() {
    let random = &mut Random::new(709);
    let mut met = BTreeSet::new();
    for owner in OWNERS {
        for (bit, judging) in (0..32).zip(JUDGINGS.into_iter().cycle()) {
            let election = random.word() as u32;
            let mut board = Moves::of(random, Parameters::numbered(election, M, 3, 1));
            let (slot, other) = (random.index(6), Form::Numbered(election ^ 1 << bit));
            let place = board.holder(owner).slot(slot as u8);
            board.post((owner, slot), other.scheme(), place);
            met.insert(board.check(random, judging));
        }
    }
    assert_eq!(met.len(), 2, "opened ones and others");
}

/// One commitment of the other form: of the opening alone with 0C, and of the place too with 01.
#[test]
fn commitments_of_the_other_form() {
    let random = &mut Random::new(716);
    let others = [Form::Numbered(0).scheme(), Scheme::Bare];
    for (owner, slot) in OWNERS.into_iter().flat_map(|owner| (0..6).map(move |slot| (owner, slot)))
    {
        for (form, scheme) in FORMS.into_iter().zip(others) {
            let mut board = Moves::of(random, Parameters { form, modulus: M, n: 3, m: 1 });
            let place = board.holder(owner).slot(slot as u8);
            board.post((owner, slot), scheme, place);
            for judging in JUDGINGS {
                let record = board.forgery.record(random, judging);
                assert_eq!(judge(&record, judging), board.due(&record, true), "{form:?}");
            }
        }
    }
}

/// A record whose number is changed: plainly 13 at the first command 07, whichever the bit; with
/// what is drawn for the other number the same by drawn judging.
#[test]
fn number_changed() {
    let random = &mut Random::new(710);
    for election in ELECTIONS {
        for bit in 0..32 {
            let other = Form::Numbered(election ^ 1 << bit);
            let inputs = inputs(random, Parameters::numbered(election, M, 2, 1));
            let mut secrets = Secrets::new(&inputs);
            secrets.parameters.form = other;
            let forgery = Forgery::new(secrets, random.mask(1));
            let fault = Fault { number: 13, place: forgery.layout.ballot_half(0) };
            for judging in JUDGINGS {
                let record = forgery.record(random, judging);
                assert_eq!(judge(&record, judging), Err(fault), "{election} {bit} {judging:?}");
            }
        }
    }
}

/// A ballot's id changed while ids still rise: 13 at its command 07 with 0C; with 01 it stands.
#[test]
fn id_changed() {
    let random = &mut Random::new(711);
    let ids = [0x0102_0304, 0x4050_6070, 0xA0B0_C0D0];
    for (form, judging) in ways() {
        for (ballot, bit) in (0..3).flat_map(|ballot| (0..32).map(move |bit| (ballot, bit))) {
            let mut inputs = inputs(random, Parameters { form, modulus: M, n: 3, m: 1 });
            inputs.ids = ids.to_vec();
            let mut other = ids;
            other[ballot] ^= 1 << bit;
            if !other.is_sorted() {
                continue;
            }
            let mut forgery = Forgery::new(Secrets::new(&inputs), random.mask(1));
            forgery.set(forgery.layout.ballot(ballot) + 1, &other[ballot].to_be_bytes());
            let place = forgery.layout.ballot_half(ballot);
            let due = match form {
                Form::Unnumbered => Ok(sorted(&inputs.votes)),
                Form::Numbered(_) => Err(Fault { number: 13, place }),
            };
            let record = forgery.record(random, judging);
            assert_eq!(judge(&record, judging), due, "{form:?} {judging:?}: {ballot}, bit {bit}");
        }
    }
}

/// Two ballots' ids moved up by one: the openings of neither fit.
#[test]
fn ids_moved() {
    let random = &mut Random::new(712);
    for (form, judging) in ways() {
        let mut inputs = inputs(random, Parameters { form, modulus: M, n: 3, m: 1 });
        inputs.ids = vec![5, 6, 7];
        let mut forgery = Forgery::new(Secrets::new(&inputs), 0b10);
        for (ballot, id) in [(1, 7u32), (2, 8)] {
            forgery.set(forgery.layout.ballot(ballot) + 1, &id.to_be_bytes());
        }
        let place = forgery.layout.ballot_half(1);
        let due = match form {
            Form::Unnumbered => Ok(sorted(&inputs.votes)),
            Form::Numbered(_) => Err(Fault { number: 13, place }),
        };
        assert_eq!(judge(&forgery.record(random, judging), judging), due, "{form:?} {judging:?}");
    }
}

/// A board without places beside each other fault: what comes before the first opening is found, and
/// of what comes behind it nothing.
#[test]
fn beside_other_faults() {
    let random = &mut Random::new(713);
    let mut met = BTreeSet::new();
    let parameters = Parameters::numbered(7, M, 3, 2);
    for judging in JUDGINGS {
        for way in breaches(parameters.form, judging) {
            let mut secrets = Secrets::new(&inputs(random, parameters));
            secrets.scheme = Scheme::Bare;
            let target = Target::any(random, &parameters);
            let mut forgery = Forgery::new(secrets, random.mask(2));
            let found = breach(&mut forgery, &target, &[way]);
            let place = forgery.layout.ballot_half(0);
            let due = if found.place < place { found } else { Fault { number: 13, place } };
            let record = forgery.record(random, judging);
            assert_eq!(judge(&record, judging), Err(due), "{:02X} {}", way.command, way.name);
            met.insert(due.number);
        }
    }
    assert_eq!(met, BTreeSet::from([1, 2, 3, 4, 5, 6, 7, 8, 9, 10, 13, 21]));
}

/// In one command: 4, 10, 11 and 12 come before a commitment of another place, 14 and 16 behind it.
#[test]
fn in_the_order_of_a_command() {
    let random = &mut Random::new(714);
    let parameters = Parameters::numbered(7, M, 3, 1);
    let mut met = BTreeSet::new();
    for judging in JUDGINGS {
        let ways = breaches(parameters.form, judging);
        for way in ways.iter().filter(|way| [0x07, 0x08, 0x0A].contains(&way.command)) {
            let target = Target::any(random, &parameters);
            let mut board = Moves::of(random, parameters);
            let secrets = &board.forgery.secrets;
            let owner = match way.command {
                0x07 => Ballot(target.ballot),
                0x08 => {
                    let list = lists_of(1, board.forgery.mask, true)[0];
                    Entry(list, secrets.places[list][target.ballot])
                }
                _ => Entry(lists_of(1, board.forgery.mask, false)[0], 2),
            };
            let found = breach(&mut board.forgery, &target, &[*way]);
            for slot in 0..6 {
                let place = board.holder(owner).slot(slot as u8 ^ 1);
                board.made_for(owner, slot, place);
            }
            let due = Fault { number: found.number.min(13), ..found };
            let record = board.forgery.record(random, judging);
            assert_eq!(judge(&record, judging), Err(due), "{:02X} {}", way.command, way.name);
            met.insert((way.command, found.number));
        }
    }
    assert!(met.is_superset(&BTreeSet::from([(0x07, 11), (0x08, 14), (0x0A, 16), (0x07, 12)])));
}

/// The most lists: a commitment of the list before or behind, of every list, plainly.
#[test]
fn every_list() {
    let random = &mut Random::new(715);
    let parameters = Parameters::numbered(u32::MAX, M, 2, 12);
    for list in 0..24 {
        for other in [list ^ 1, (list + 2) % 24, list ^ 8, 255 - list, 0xFF] {
            let mut board = Moves::of(random, parameters);
            let position = random.index(2);
            for slot in 0..6 {
                let place = Holder::entry(other, position).slot(slot as u8);
                board.made_for(Entry(list, position), slot, place);
            }
            assert!(!board.check(random, Judging::Plain), "{list} for {other}");
        }
    }
}
