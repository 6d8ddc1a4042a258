//! The two forms beside each other: what the first command is, and what it changes.

use super::{answer, run};
use crate::subject::{mask_entry, part_one};
use paddockyear_tests::boards::calls::parts::{PartCall, KINDS};
use paddockyear_tests::boards::*;
use paddockyear_tests::random::Random;
use paddockyear_tests::reference::drawing::{drawn_mask, drawn_sides, seed};
use paddockyear_tests::reference::terms::{Form, Parameters};
use paddockyear_tests::reference::writer::{mask_of, Inputs};
use std::collections::BTreeSet;

/// Both forms, and of the numbered one every number.
fn every_form() -> Vec<Form> {
    let numbered = ELECTIONS.into_iter().map(Form::Numbered);
    [Form::Unnumbered].into_iter().chain(numbered).collect()
}

fn in_form(inputs: &Inputs, form: Form) -> Inputs {
    Inputs { parameters: Parameters { form, ..inputs.parameters }, ..inputs.clone() }
}

fn written_part_one(inputs: &Inputs) -> Vec<u8> {
    let mut out = vec![0xA5; inputs.parameters.part_lengths()[0]];
    part_one(inputs, &mut out).unwrap();
    out
}

/// What is no commitment of a part one behind its first command.
fn operands(part_one: &[u8], parameters: &Parameters) -> Vec<u8> {
    let (n, lists) = (parameters.ballots(), parameters.lists());
    let widths = [vec![5; n], vec![4; lists * n]].concat();
    let mut rest = &part_one[parameters.form.width()..];
    let mut operands = Vec::new();
    for width in widths {
        operands.extend(&rest[..width]);
        rest = &rest[width + 192..];
    }
    assert!(rest.is_empty());
    operands
}

fn commitments_of(part_one: &[u8], parameters: &Parameters) -> BTreeSet<Vec<u8>> {
    let layout = Layout::new(parameters);
    let six = |at: usize| part_one[at..][..192].chunks(32).map(<[u8]>::to_vec);
    let n = parameters.ballots();
    let entries = (0..parameters.lists()).flat_map(|list| (0..n).map(move |i| (list, i)));
    let ballots = (0..n).flat_map(|j| six(layout.ballot_commitment(j, 0)));
    let entries = entries.flat_map(|(list, i)| six(layout.entry_commitment(list, i, 0)));
    ballots.chain(entries).collect()
}

/// Worked out by hand: 12 bytes for 8, and all that stands behind them as it was, but for the
/// commitments, of which none is as with 01 or with another number.
#[test]
fn first_commands() {
    let inputs = inputs(&mut Random::new(300), Parameters::unnumbered(0x0405_0607, 3, 2));
    let unnumbered = written_part_one(&inputs);
    assert_eq!(unnumbered[..8], [0x01, 0x04, 0x05, 0x06, 0x07, 0x00, 0x03, 0x02]);
    let mut commitments = commitments_of(&unnumbered, &inputs.parameters);
    for (election, bytes) in [
        (0, [0, 0, 0, 0]),
        (1, [0, 0, 0, 1]),
        (255, [0, 0, 0, 255]),
        (256, [0, 0, 1, 0]),
        (65_536, [0, 1, 0, 0]),
        (0x0C0C_0C0C, [0x0C, 0x0C, 0x0C, 0x0C]),
        (0x0102_0304, [1, 2, 3, 4]),
        (2_147_483_648, [128, 0, 0, 0]),
        (4_294_967_295, [255, 255, 255, 255]),
    ] {
        let in_form = in_form(&inputs, Form::Numbered(election));
        let numbered = written_part_one(&in_form);
        assert_eq!(numbered[0], 0x0C);
        assert_eq!(numbered[1..5], bytes);
        assert_eq!(numbered[5..12], unnumbered[1..8]);
        let others = operands(&numbered, &in_form.parameters);
        assert_eq!(others, operands(&unnumbered, &inputs.parameters));
        commitments.extend(commitments_of(&numbered, &in_form.parameters));
        assert_eq!(numbered.len(), unnumbered.len() + 4);
    }
    assert_eq!(commitments.len(), 10 * 6 * (3 + 4 * 3));
}

/// By the papers' formulas, and by hand.
#[test]
fn lengths() {
    for (n, m) in [(1, 1), (8, 2), (3, 12), (4096, 12)] {
        let (wide_n, mn) = (n as usize, (n * m) as usize);
        let [unnumbered, numbered] = FORMS.map(|form| Parameters { form, modulus: 2, n, m });
        assert_eq!(unnumbered.part_lengths()[0], 8 + 197 * wide_n + 392 * mn);
        assert_eq!(numbered.part_lengths()[0], 12 + 197 * wide_n + 392 * mn);
        assert_eq!(unnumbered.part_lengths()[1..], numbered.part_lengths()[1..]);
        assert_eq!(unnumbered.record_length(), 75 + 316 * wide_n + 734 * mn);
        assert_eq!(numbered.record_length(), 79 + 316 * wide_n + 734 * mn);
        for parameters in [unnumbered, numbered] {
            let parts = parameters.part_lengths();
            assert_eq!(parts.iter().sum::<usize>(), parameters.record_length());
        }
    }
    let length = |n, m| Parameters::numbered(0, 2, n, m).record_length();
    assert_eq!([length(1, 1), length(8, 2), length(4096, 12)], [1_129, 14_351, 37_371_983]);
}

/// With mask and sides given, parts two and three are the same in every form.
#[test]
fn given_parts_do_not_depend_on_the_form() {
    let random = &mut Random::new(301);
    for part in [2, 3] {
        let call = PartCall::honest(random, Parameters::unnumbered(100, 5, 2), (part, NEITHER));
        let written = |form| {
            let mut call = PartCall { inputs: in_form(&call.inputs, form), ..call.clone() };
            run(&mut call).unwrap();
            call.out
        };
        for form in every_form() {
            assert!(written(form) == written(Form::Unnumbered), "part {part}, {form:?}");
        }
    }
}

/// What is drawn is drawn on the part one that is lent; the form only tells its length.
#[test]
fn drawn_parts_are_drawn_on_the_whole_part_one() {
    let random = &mut Random::new(302);
    let parameters = Parameters::unnumbered(100, 20, 12);
    let inputs = inputs(random, parameters);
    let (dice, two) = (random.dice(), random.bytes(parameters.part_lengths()[1]));
    let (mut masks, mut sides) = (BTreeSet::new(), BTreeSet::new());
    for form in every_form() {
        let inputs = in_form(&inputs, form);
        let part_one = written_part_one(&inputs);
        let mask = drawn_mask(12, &seed(&dice, &part_one));
        assert_eq!(mask_entry(&inputs.parameters, &dice, &part_one), Ok(mask));
        let call = PartCall::of(random, inputs, (2, BOTH));
        let mut second = PartCall { dice: dice.clone(), part_one: part_one.clone(), ..call };
        run(&mut second).unwrap();
        assert_eq!(mask_of(&second.out), mask);
        let drawn = drawn_sides(20, &seed(&dice, &[&part_one[..], &two].concat()));
        let (part, out) = (3, vec![0; parameters.part_lengths()[2]]);
        let mut third = PartCall { part, out, part_two: two.clone(), mask, ..second };
        run(&mut third).unwrap();
        let half = |ballot: usize| 31 + 112 * 13 * ballot + 3;
        assert!((0..20).map(|j| third.out[half(j)]).eq(drawn.iter().copied()));
        masks.insert(mask);
        sides.insert(drawn);
    }
    assert_eq!((masks.len(), sides.len()), (13, 13), "each form and number draws its own");
}

/// Every buffer and every lent part one with the length of the other form, 4 bytes off and less.
#[test]
fn lengths_of_the_other_form() {
    let random = &mut Random::new(303);
    for (form, kind) in every_form().into_iter().flat_map(|form| KINDS.map(|kind| (form, kind))) {
        let parameters = Parameters { form, modulus: 100, n: 2, m: 1 };
        let call = PartCall::honest(random, parameters, kind);
        let (out, one) = (call.out.len(), call.part_one.len());
        for longer in 1..=8 {
            for length in [out - longer, out + longer] {
                let call = PartCall { out: vec![7; length], ..call.clone() };
                assert_eq!(answer(call), 18, "{form:?} {kind:?}");
            }
            for length in [one - longer, one + longer] {
                let call = PartCall { part_one: vec![7; length], ..call.clone() };
                let due = if call.lends_part_one() { 18 } else { 0 };
                assert_eq!(answer(call), due, "{form:?} {kind:?}");
            }
        }
    }
}

/// A call that is told the other form is refused where part one's length counts, else not.
#[test]
fn told_the_other_form() {
    let random = &mut Random::new(304);
    for kind in KINDS {
        for form in FORMS {
            let call = PartCall::honest(random, Parameters { form, modulus: 9, n: 2, m: 1 }, kind);
            for other in every_form() {
                let told = PartCall { inputs: in_form(&call.inputs, other), ..call.clone() };
                let counts = kind.0 == 1 || call.lends_part_one();
                let due = if counts && other.width() != form.width() { 18 } else { 0 };
                assert_eq!(answer(told), due, "{kind:?}: {other:?} for {form:?}");
            }
        }
    }
}
