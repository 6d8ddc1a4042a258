//! What the tablet answers and writes.

use std::collections::BTreeSet;

use crate::subject::tablet;
use paddockyear_tests::boards::calls::misuse::{check_each, check_pairs, misuse_at_random};
use paddockyear_tests::boards::calls::tablet::TabletCall;
use paddockyear_tests::boards::{honest, parameters, Layout, ELECTIONS, FORMS, MODULI, NEITHER};
use paddockyear_tests::hex;
use paddockyear_tests::random::Random;
use paddockyear_tests::reference::receipt::{check_receipt, Posted};
use paddockyear_tests::reference::tablet::{receipt, SplitVote};
use paddockyear_tests::reference::terms::{Form, Parameters};

/// Runs the call; a refusal leaves both buffers as they were.
fn answer(mut call: TabletCall) -> u8 {
    let before = (call.command.clone(), call.receipt.clone());
    let TabletCall { form, modulus, id, split, keys, command, receipt } = &mut call;
    let answer = tablet(*form, *modulus, *id, split, keys, command, receipt);
    assert!(answer.is_ok() || (call.command, call.receipt) == before);
    answer.map_or_else(|number| number, |()| 0)
}

#[test]
fn honest_ballots() {
    let random = &mut Random::new(65);
    for _ in 0..2_000 {
        assert_eq!(answer(TabletCall::honest(random)), 0);
    }
}

/// Numbers at both ends of their range, in every combination.
#[test]
fn numbers_at_the_limits() {
    let random = &mut Random::new(66);
    for modulus in MODULI {
        for ends in 0..64 {
            let [vote, x, y, u1, u2, u3] =
                std::array::from_fn(|slot| if ends >> slot & 1 == 0 { 0 } else { modulus - 1 });
            let split = SplitVote { vote, shares: [x, y], firsts: [u1, u2, u3] };
            assert_eq!(answer(TabletCall { modulus, split, ..TabletCall::honest(random) }), 0);
        }
    }
}

#[test]
fn ids_at_the_limits() {
    let random = &mut Random::new(67);
    for id in [0, 1, 255, 256, 65_536, 1 << 24, u32::MAX] {
        assert_eq!(answer(TabletCall { id, ..TabletCall::honest(random) }), 0);
    }
}

/// The command and receipt that a call writes.
fn written(mut call: TabletCall) -> TabletCall {
    let TabletCall { form, modulus, id, split, keys, command, receipt } = &mut call;
    assert_eq!(tablet(*form, *modulus, *id, split, keys, command, receipt), Ok(()));
    call
}

fn six(call: &TabletCall) -> BTreeSet<&[u8]> {
    call.command[5..].chunks(32).collect()
}

/// The tablet knows no other ballot: cast again under another id, with 01 only the id differs, and
/// with 0C every commitment. Six equal openings stand, and with 01 so do the six equal commitments.
#[test]
fn copied_ballots() {
    let random = &mut Random::new(74);
    for form in FORMS {
        let first = TabletCall { form, ..TabletCall::honest(random) };
        let again = written(TabletCall { id: first.id ^ 1, ..first.clone() });
        let first = written(first);
        let common = six(&first).intersection(&six(&again)).count();
        assert_ne!(first.receipt, again.receipt);
        let split = SplitVote { vote: 6, shares: [2, 2], firsts: [1; 3] };
        let equal = TabletCall { modulus: 9, split, keys: vec![0x11; 192], ..again.clone() };
        let found = (first.command[5..] == again.command[5..], common, six(&written(equal)).len());
        assert_eq!(found, if form == Form::Unnumbered { (true, 6, 1) } else { (false, 0, 6) });
    }
}

#[test]
fn every_misuse() {
    let random = &mut Random::new(68);
    for _ in 0..20 {
        check_each(&TabletCall::honest(random), answer);
    }
}

#[test]
fn every_pair_of_misuses() {
    let random = &mut Random::new(69);
    for _ in 0..20 {
        check_pairs(&TabletCall::honest(random), answer);
    }
}

#[test]
fn random_ballots() {
    let random = &mut Random::new(70);
    let mut answers = BTreeSet::new();
    for _ in 0..1_000 {
        let mut call = TabletCall::honest(random);
        misuse_at_random(random, &mut call);
        answers.insert(answer(call));
    }
    assert_eq!(answers, BTreeSet::from([0, 3, 10, 18]));
}

#[test]
fn tablet_refusals() {
    let split = SplitVote { vote: 24, shares: [50, 60], firsts: [7, 99, 30] };
    let run = |modulus, split: &SplitVote, keys: usize, command: usize, receipt: usize| {
        let answers = FORMS.map(|form| {
            let (mut command, mut receipt) = (vec![7; command], vec![7; receipt]);
            let answer =
                tablet(form, modulus, 5, split, &vec![1; keys], &mut command, &mut receipt);
            let untouched = command.iter().chain(&receipt).all(|&byte| byte == 7);
            assert_eq!(answer.is_err(), untouched);
            answer
        });
        assert_eq!(answers[0], answers[1]);
        answers[0]
    };
    assert_eq!(run(100, &split, 192, 197, 32), Ok(()));
    assert_eq!(run(1, &split, 191, 197, 32), Err(3));
    assert_eq!(run(0, &split, 192, 197, 32), Err(3));
    for (keys, command, receipt) in [(191, 197, 32), (192, 196, 32), (192, 197, 33)] {
        assert_eq!(run(50, &split, keys, command, receipt), Err(18));
    }
    assert_eq!(run(99, &split, 192, 197, 32), Err(10));
    for slot in 0..6 {
        let mut given = [0; 6];
        given[slot] = 2;
        let [vote, x, y, u1, u2, u3] = given;
        let split = SplitVote { vote, shares: [x, y], firsts: [u1, u2, u3] };
        assert_eq!(run(2, &split, 192, 197, 32), Err(10));
        assert_eq!(run(3, &split, 192, 197, 32), Ok(()));
    }
}

/// The same vote for another election, or under an id with another bit, or with 01: the command's
/// first five bytes tell the id alone, and no commitment is another's, at whichever slot.
#[test]
fn other_elections_and_ids() {
    let random = &mut Random::new(71);
    for _ in 0..10 {
        let call = TabletCall { form: Form::Unnumbered, ..TabletCall::honest(random) };
        let mut met = BTreeSet::new();
        let mut calls = vec![call.clone()];
        for election in ELECTIONS {
            let call = TabletCall { form: Form::Numbered(election), ..call.clone() };
            let ids = (0..32).map(|bit| call.id ^ 1 << bit).chain([call.id]);
            calls.extend(ids.map(|id| TabletCall { id, ..call.clone() }));
        }
        let count = calls.len();
        for call in calls {
            let call = written(call);
            assert_eq!(call.command[..5], [&[0x02][..], &call.id.to_be_bytes()].concat());
            assert_eq!(call.receipt, receipt(call.id, &call.command));
            met.extend(six(&call).into_iter().map(<[u8]>::to_vec));
        }
        assert_eq!((count, met.len()), (1 + 12 * 33, 6 * count));
    }
}

/// By another program's SHA-3: 1 at u1, v1, u2, v2, u3 and v3, the keys 32 bytes of 11.
const SLOTS: [&str; 6] = [
    "54199839954d31bf50667d016bd5007bba9f7cc9dbebebcb957b2825841d6acf",
    "0ae9220ece5483ce8fbab3627bf1e7b46e365a19eb14abded4fd78837697138d",
    "7b01e2c1808ee8c7686e39fefe979137113eff7b37d85aa6676416f2b0ae19df",
    "b20890ae15f9837f10c74ba5f4ea9f67eac6f3347e78e263aaeab8f1fd67b6b9",
    "222fd6e374a5d87fdbdaf15540fdde4174bf1931c64b1498a959c905fc5edc38",
    "a41fa9d26f59db5cd7202712a94ced6a11b09ec3fde57ea78a137cc8b93e5d6c",
];
const RECEIPT: &str = "0000000718f86d41e4838a97a2f46e697d9cb33e3e856df31980f8a6f794be8f";

/// One key and one number at all six slots, worked out outside: the tablet of election 1 for id 7.
#[test]
fn slots() {
    let split = SplitVote { vote: 6, shares: [2, 2], firsts: [1; 3] };
    let call = TabletCall {
        form: Form::Numbered(1),
        modulus: 9,
        id: 7,
        split,
        keys: vec![0x11; 192],
        command: vec![0xA5; 197],
        receipt: vec![0xA5; 32],
    };
    let call = written(call);
    assert_eq!(call.command[5..].chunks(32).map(hex).collect::<Vec<String>>(), SLOTS);
    assert_eq!(hex(&call.receipt), RECEIPT);
}

/// The tablet writes what part one has for the ballot.
#[test]
fn tablet_writes_the_ballot() {
    let random = &mut Random::new(38);
    for _ in 0..50 {
        let parameters = parameters(random, 5, 2);
        let board = honest(random, parameters, NEITHER);
        let inputs = &board.inputs;
        for ballot in 0..parameters.ballots() {
            let [x, y, u1, u2, u3] = inputs.numbers[5 * ballot..][..5].try_into().unwrap();
            let vote = inputs.votes[ballot];
            let split = SplitVote { vote, shares: [x, y], firsts: [u1, u2, u3] };
            let keys = &inputs.keys[192 * ballot..][..192];
            let (mut command, mut receipt) = ([0; 197], [0; 32]);
            let id = inputs.ids[ballot];
            let Parameters { form, modulus, .. } = parameters;
            tablet(form, modulus, id, &split, keys, &mut command, &mut receipt).unwrap();
            assert_eq!(command, board.parts[0][Layout::new(&parameters).ballot(ballot)..][..197]);
            assert_eq!(check_receipt(&board.record(), &receipt), Ok(Posted::AsPrinted));
        }
    }
}
