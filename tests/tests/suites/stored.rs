//! Stored records: one of up to 1,024 ballots that starts with 01 and has no copied ballot has the
//! verdict, by number and place, that it had when that was n's limit, there was no 0C and copies
//! stood; of more ballots it was 3, and of one that starts with 0C it was 2. The reference judges
//! by either edition.

use std::collections::BTreeSet;

use crate::subject::judge;
use paddockyear_tests::boards::copies::{record_of, Copied};
use paddockyear_tests::boards::damage::{breach, breaches_by, damaged_by, Breach, Forgery, Target};
use paddockyear_tests::boards::samples::{promised, stored};
use paddockyear_tests::boards::{honest, inputs, Layout, BOTH, ELECTIONS, FORMS};
use paddockyear_tests::random::Random;
use paddockyear_tests::reference::judge::{judge_by, Fault, Judging, JUDGINGS};
use paddockyear_tests::reference::terms::{
    sorted, Edition, Form, Parameters, Scheme, COPIES_STAND, FORMER, FORMER_MAX_BALLOTS,
    MAX_BALLOTS, NOW, UNPLACED,
};
use paddockyear_tests::reference::writer::Secrets;

/// The verdict by the former edition, but for this limit on n.
fn judge_within(limit: u32, record: &[u8], judging: Judging) -> Result<Vec<u32>, Fault> {
    judge_by(Edition { most_ballots: limit, ..FORMER }, record, judging)
}

/// The verdict on a record of n ballots, which is the same with n and with 1,024 as the limit. With
/// less it is 3, unless the first command has a fault that comes before.
fn kept_verdict(record: &[u8], n: u32, judging: Judging) -> Result<Vec<u32>, Fault> {
    let verdict = judge(record, judging);
    for limit in BTreeSet::from([n, FORMER_MAX_BALLOTS]) {
        assert_eq!(judge_within(limit, record, judging), verdict, "limit {limit}");
    }
    let in_first_command = verdict.as_ref().is_err_and(|fault| fault.place == 0);
    let limits = Err(Fault { number: 3, place: 0 });
    let due = if in_first_command { &verdict } else { &limits };
    assert_eq!(judge_within(n - 1, record, judging), *due, "limit {}", n - 1);
    verdict
}

#[test]
fn of_the_folder() {
    let (numbered, others): (Vec<_>, Vec<_>) =
        stored().unwrap().into_iter().partition(|(name, _)| name.starts_with("numbered-"));
    assert!(numbered.len() >= 6 && others.len() == 17);
    for (name, record) in others.into_iter().filter(|(name, _)| promised(name) != Some(21)) {
        let n = u32::from(u16::from_be_bytes([record[5], record[6]]));
        assert!((1..=FORMER_MAX_BALLOTS).contains(&n), "{name}");
        for judging in JUDGINGS {
            let verdict = kept_verdict(&record, n, judging);
            let honest = promised(&name).is_none();
            assert!(judging == Judging::Plain || verdict.is_ok() == honest, "{name}");
        }
    }
    for (name, record) in numbered {
        let verdict = judge_by(FORMER, &record, Judging::Drawn);
        assert_eq!(verdict, Err(Fault { number: 2, place: 0 }), "{name}");
    }
}

/// What starts with 0C was refused whatever stood behind it.
#[test]
fn of_numbered_elections() {
    let random = &mut Random::new(296);
    for election in ELECTIONS {
        let board = honest(random, Parameters::numbered(election, 100, 3, 1), BOTH);
        for judging in JUDGINGS {
            assert_eq!(judge(&board.record(), judging), Ok(sorted(&board.inputs.votes)));
            let former = judge_by(FORMER, &board.record(), judging);
            assert_eq!(former, Err(Fault { number: 2, place: 0 }));
        }
    }
}

#[test]
fn of_few_ballots() {
    let random = &mut Random::new(290);
    for n in 1..=40 {
        let board = honest(random, Parameters::unnumbered(100, n, 1 + n % 3), BOTH);
        for judging in JUDGINGS {
            let votes = sorted(&board.inputs.votes);
            assert_eq!(kept_verdict(&board.record(), n, judging), Ok(votes));
        }
    }
}

#[test]
fn of_many_ballots() {
    let random = &mut Random::new(291);
    for n in [255, 256, 257, 1023, 1024] {
        let board = honest(random, Parameters::unnumbered(u32::MAX, n, 1), BOTH);
        for judging in JUDGINGS {
            let votes = sorted(&board.inputs.votes);
            assert_eq!(kept_verdict(&board.record(), n, judging), Ok(votes));
        }
    }
}

/// A board of these parameters, damaged in this way.
fn kept_fault(random: &mut Random, parameters: Parameters, way: Breach, judging: Judging) {
    let secrets = Secrets::new(&inputs(random, parameters));
    let target = Target::any(random, &parameters);
    let mut forgery = Forgery::new(secrets, random.mask(parameters.m));
    let due = breach(&mut forgery, &target, &[way]);
    let verdict = kept_verdict(&forgery.record(random, judging), parameters.n, judging);
    assert_eq!(verdict, Err(due), "{:02X} {}", way.command, way.name);
}

#[test]
fn damaged_in_every_way() {
    let random = &mut Random::new(292);
    for judging in JUDGINGS {
        for way in breaches_by(COPIES_STAND, Form::Unnumbered, judging) {
            for (n, m) in [(2, 1), (3, 2), (40, 1)] {
                kept_fault(random, Parameters::unnumbered(100, n, m), way, judging);
            }
        }
    }
}

/// Two faults or one, n = 1,025 and the first byte 0C being among them: of all verdicts only those
/// are others now.
#[test]
fn damaged_at_random() {
    let random = &mut Random::new(293);
    let mut others = [0; 2];
    for judging in JUDGINGS {
        for _ in 0..500 {
            let (record, due) = damaged_by(FORMER, random, (9, 3), judging);
            assert_eq!(judge_by(FORMER, &record, judging), Err(due));
            let stands = due.number == 3 && record[5..7] == [4, 1];
            let numbered = due.number == 2 && record[0] == 0x0C;
            let found = judge(&record, judging);
            assert_eq!(found == Err(due), !stands && !numbered, "{due:?}");
            others[0] += usize::from(stands);
            others[1] += usize::from(numbered);
        }
    }
    assert!(others.iter().all(|&count| count > 0), "{others:?}");
}

/// One way for each rule of each command, on as many ballots as there were at most.
#[test]
fn damaged_of_many_ballots() {
    let random = &mut Random::new(294);
    let mut met = BTreeSet::new();
    let parameters = Parameters::unnumbered(u32::MAX, FORMER_MAX_BALLOTS, 1);
    for way in breaches_by(COPIES_STAND, Form::Unnumbered, Judging::Plain) {
        if met.insert((way.command, way.number)) {
            kept_fault(random, parameters, way, Judging::Plain);
        }
    }
    assert_eq!(met.len(), 47);
}

/// More ballots were refused, and stand.
#[test]
fn above_the_former_limit_of_many_ballots() {
    let random = &mut Random::new(295);
    for n in [FORMER_MAX_BALLOTS + 1, MAX_BALLOTS] {
        let board = honest(random, Parameters::unnumbered(u32::MAX, n, 1), BOTH);
        let (record, votes) = (board.record(), Ok(sorted(&board.inputs.votes)));
        for judging in JUDGINGS {
            assert_eq!(judge(&record, judging), votes);
            assert_eq!(judge_within(n, &record, judging), votes);
            for limit in [FORMER_MAX_BALLOTS, n - 1] {
                let fault = Fault { number: 3, place: 0 };
                assert_eq!(judge_within(limit, &record, judging), Err(fault), "limit {limit}");
            }
        }
    }
}

/// The former verdict on a board with copies and no other fault, and the one since: the fault lies
/// in the copying ballot. With 0C the copies are posted, and what is opened of them was refused.
fn refused_since(random: &mut Random, copied: &Copied, ballot: usize) {
    let parameters = copied.inputs.parameters;
    let place = Layout::new(&parameters).ballot(ballot);
    for judging in JUDGINGS {
        let openings = copied.openings();
        let (record, votes) = match parameters.form {
            Form::Unnumbered => {
                (record_of(random, &openings, judging), Ok(sorted(&openings.votes)))
            }
            Form::Numbered(_) => {
                let record = copied.posted(random, judging);
                let found = copied.found_posted(&record);
                (record, found)
            }
        };
        assert_eq!(judge(&record, judging), Err(Fault { number: 21, place }), "{judging:?}");
        assert_eq!(judge_by(COPIES_STAND, &record, judging), votes, "{judging:?}");
        let former = judge_by(FORMER, &record, judging);
        match parameters.form {
            Form::Unnumbered => assert_eq!(former, votes, "{judging:?}"),
            Form::Numbered(_) => assert_eq!(former, Err(Fault { number: 2, place: 0 })),
        }
    }
}

/// A ballot cast again, and one commitment of another ballot.
#[test]
fn of_copied_ballots() {
    let random = &mut Random::new(297);
    for (form, n) in FORMS.into_iter().flat_map(|form| [2, 3, 9].map(|n| (form, n))) {
        let honest = Copied::none(inputs(random, Parameters { form, modulus: 100, n, m: 1 }));
        for ballot in 1..n as usize {
            let earlier = random.index(ballot);
            refused_since(random, &honest.clone().and_ballot(earlier, ballot), ballot);
            let (from, to) = ((earlier, random.index(6)), (ballot, random.index(6)));
            refused_since(random, &honest.clone().and(from, to), ballot);
        }
    }
}

/// Records with 0C were never published: what stood before document 02's item 8 is refused at its
/// first opening, and what stands was. With 01 nothing changes.
#[test]
fn of_commitments_without_a_place() {
    let random = &mut Random::new(299);
    for (form, judging) in FORMS.into_iter().flat_map(|form| JUDGINGS.map(|j| (form, j))) {
        let inputs = inputs(random, Parameters { form, modulus: 100, n: 4, m: 2 });
        let placed = Secrets::new(&inputs);
        let bare = Secrets { scheme: Scheme::Bare, ..placed.clone() };
        let votes = Ok(sorted(&inputs.votes));
        for (secrets, of_form) in [(placed, true), (bare, form == Form::Unnumbered)] {
            let forgery = Forgery::new(secrets, random.mask(2));
            let record = forgery.record(random, judging);
            let fault = Err(Fault { number: 13, place: forgery.layout.ballot_half(0) });
            let stood = !of_form || form == Form::Unnumbered;
            let due = |stands| if stands { &votes } else { &fault };
            assert_eq!(judge(&record, judging), *due(of_form), "{form:?}");
            assert_eq!(judge_by(UNPLACED, &record, judging), *due(stood), "{form:?}");
        }
    }
}

/// Boards of both forms with one fault or two. Where none is a copy, number and place are those of
/// before; a copy was passed over, and what was found then lies behind it.
#[test]
fn copies_among_faults_at_random() {
    let random = &mut Random::new(298);
    let (mut passed, mut others) = (0, BTreeSet::new());
    for (edition, judging) in [NOW, COPIES_STAND].into_iter().flat_map(|e| JUDGINGS.map(|j| (e, j)))
    {
        for _ in 0..1_000 {
            let (record, due) = damaged_by(edition, random, (6, 2), judging);
            assert_eq!(judge(&record, judging), Err(due));
            let before = judge_by(COPIES_STAND, &record, judging);
            match (due.number, before) {
                (21, Ok(_)) => passed += 1,
                (21, Err(fault)) => {
                    assert!(fault.place > due.place, "{fault:?} and {due:?}");
                    others.insert(fault.number);
                }
                (_, before) => assert_eq!(before, Err(due)),
            }
        }
    }
    assert!(passed > 0);
    assert!(others.is_superset(&BTreeSet::from([1, 4, 6, 7, 8, 9, 13])), "{others:?}");
}
