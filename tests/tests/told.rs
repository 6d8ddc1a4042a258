//! How the product's faces are told the form: a flag, of which 0 is command 01 and any other value
//! 0C, and the election's number, which is not looked at where the flag is 0.

use paddockyear_tests::boards::calls::election::ElectionCall;
use paddockyear_tests::boards::calls::parts::{PartCall, KINDS};
use paddockyear_tests::boards::calls::tablet::TabletCall;
use paddockyear_tests::boards::{inputs, ALL_DRAWS, ELECTIONS, FORMS};
use paddockyear_tests::ffi::{election, parts, tablet, Told};
use paddockyear_tests::lent::number_of;
use paddockyear_tests::random::Random;
use paddockyear_tests::reference::drawing::mask_entry;
use paddockyear_tests::reference::terms::{Form, Parameters};
use paddockyear_tests::reference::writer::{self, Inputs, MaskSource, SidesSource};
use paddockyear_tests::reference::{election as reference_election, tablet as reference_tablet};

const FLAGS: [u32; 8] = [0, 1, 2, 255, 256, 65_536, 1 << 31, u32::MAX];

/// Every flag with every number.
fn every_told() -> impl Iterator<Item = Told> {
    let told = |numbered| ELECTIONS.map(|election| Told { numbered, election });
    FLAGS.into_iter().flat_map(told)
}

fn in_form(inputs: &Inputs, form: Form) -> Inputs {
    Inputs { parameters: Parameters { form, ..inputs.parameters }, ..inputs.clone() }
}

/// The product told so and the reference told the form that it has to be taken for.
fn part(told: Told, call: &PartCall) -> [(u32, Vec<u8>); 2] {
    let PartCall { part, draws, inputs, dice, mask, sides, part_one, part_two, .. } = call;
    let given = in_form(inputs, told.form());
    let (mut found, mut due) = (call.out.clone(), call.out.clone());
    let mask_source =
        if draws.mask { MaskSource::Drawn { part_one } } else { MaskSource::Given(*mask) };
    let side_source = if draws.sides {
        SidesSource::Drawn { part_one, part_two }
    } else {
        SidesSource::Given(sides)
    };
    let (answer, due_answer) = match part {
        1 => (parts::part_one(told, inputs, &mut found), writer::part_one(&given, &mut due)),
        2 => (
            parts::part_two(told, inputs, dice, mask_source, &mut found),
            writer::part_two(&given, dice, mask_source, &mut due),
        ),
        _ => (
            parts::part_three(told, inputs, dice, *mask, side_source, &mut found),
            writer::part_three(&given, dice, *mask, side_source, &mut due),
        ),
    };
    [(answer, found), (number_of(&due_answer), due)]
}

#[test]
fn parts_of_every_kind() {
    let random = &mut Random::new(500);
    for form in FORMS {
        for kind in KINDS {
            let call = PartCall::honest(random, Parameters { form, modulus: 9, n: 2, m: 1 }, kind);
            for told in every_told() {
                let [found, due] = part(told, &call);
                assert!(found == due, "{kind:?} {told:?}: {} and {}", found.0, due.0);
                let fits = told.form().width() == form.width();
                let counts = kind.0 == 1 || call.lends_part_one();
                assert_eq!(found.0, if fits || !counts { 0 } else { 18 }, "{kind:?} {told:?}");
            }
        }
    }
}

/// Flags that are not 0 are alike, and behind a flag of 0 all numbers.
#[test]
fn flags() {
    let inputs = inputs(&mut Random::new(501), Parameters::unnumbered(100, 2, 1));
    let written = |numbered, election| {
        let told = Told { numbered, election };
        let parameters = Parameters { form: told.form(), ..inputs.parameters };
        let mut out = vec![7; parameters.part_lengths()[0]];
        assert_eq!(parts::part_one(told, &inputs, &mut out), 0, "{told:?}");
        out
    };
    for election in ELECTIONS {
        assert_eq!(written(0, election), written(0, 0));
        let numbered = written(1, election);
        assert_eq!(numbered[..5], [&[0x0C][..], &election.to_be_bytes()].concat());
        for flag in &FLAGS[1..] {
            assert_eq!(written(*flag, election), numbered);
        }
    }
}

#[test]
fn draws_of_the_mask() {
    let random = &mut Random::new(502);
    for form in FORMS {
        let parameters = Parameters { form, modulus: 100, n: 2, m: 12 };
        let (dice, part_one) = (random.dice(), random.bytes(parameters.part_lengths()[0]));
        for told in every_told() {
            let mut mask = 77;
            let found = parts::draw_mask(told, &parameters, &dice, &part_one, &mut mask);
            let given = Parameters { form: told.form(), ..parameters };
            let due = mask_entry(&given, &dice, &part_one);
            assert_eq!((found, mask), (number_of(&due), due.unwrap_or(77)), "{told:?}");
            assert_eq!(due.is_ok(), told.form().width() == form.width());
        }
    }
}

#[test]
fn elections() {
    let random = &mut Random::new(503);
    for (form, draws) in FORMS.into_iter().flat_map(|form| ALL_DRAWS.map(|draws| (form, draws))) {
        let call =
            ElectionCall::honest(random, Parameters { form, modulus: 100, n: 2, m: 1 }, draws);
        for told in every_told() {
            let (mut found, mut due) = (call.clone(), call.clone());
            let answer = found.hold(|inputs, table, buffers| {
                match election::election(told, inputs, table, buffers) {
                    0 => Ok(()),
                    number => Err(number as u8),
                }
            });
            due.inputs = in_form(&call.inputs, told.form());
            assert_eq!(answer, due.hold(reference_election::election), "{told:?}");
            assert!(found.buffers == due.buffers, "{told:?}");
            assert_eq!(answer.is_ok(), told.form().width() == form.width());
        }
    }
}

/// The tablet writes what the form that it is told makes of a ballot, and refuses the same in all.
#[test]
fn tablets() {
    let random = &mut Random::new(504);
    for broken in [false, true] {
        let TabletCall { modulus, id, split, keys, command, receipt, .. } =
            TabletCall::honest(random);
        let modulus = if broken { 1 } else { modulus };
        for told in every_told() {
            let (mut found, mut due) =
                ((command.clone(), receipt.clone()), (command.clone(), receipt.clone()));
            let answer =
                tablet::tablet(told, modulus, id, &split, &keys, &mut found.0, &mut found.1);
            let due_answer = reference_tablet::tablet(
                told.form(),
                modulus,
                id,
                &split,
                &keys,
                &mut due.0,
                &mut due.1,
            );
            assert_eq!(answer, number_of(&due_answer), "{told:?}");
            assert_eq!(answer, if broken { 3 } else { 0 });
            assert_eq!(found, due, "{told:?}");
        }
    }
}
