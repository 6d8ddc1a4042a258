//! What the servers' three parts and the draw of the mask answer and write.

mod boundaries;
mod copies;
mod draw;
mod forms;
mod many_ballots;
mod records;
mod refusals;

use crate::subject::{part_one, part_three, part_two};
use paddockyear_tests::boards::calls::parts::{PartCall, KINDS};
use paddockyear_tests::boards::FORMS;
use paddockyear_tests::random::Random;
use paddockyear_tests::reference::terms::Parameters;
use paddockyear_tests::reference::writer::{MaskSource, SidesSource};

fn run(call: &mut PartCall) -> Result<(), u8> {
    let PartCall { part, draws, inputs, dice, mask, sides, part_one: one, part_two: two, out } =
        call;
    match part {
        1 => part_one(inputs, out),
        2 => {
            let drawn = MaskSource::Drawn { part_one: one };
            part_two(inputs, dice, if draws.mask { drawn } else { MaskSource::Given(*mask) }, out)
        }
        _ => {
            let drawn = SidesSource::Drawn { part_one: one, part_two: two };
            let sides = if draws.sides { drawn } else { SidesSource::Given(sides) };
            part_three(inputs, dice, *mask, sides, out)
        }
    }
}

/// Runs the call; it writes its buffer alone, and where it refuses nothing.
fn answer(mut call: PartCall) -> u8 {
    let before = call.clone();
    let answer = run(&mut call);
    let out = if answer.is_ok() { call.out.clone() } else { before.out.clone() };
    assert!(call == PartCall { out, ..before });
    answer.map_or_else(|number| number, |()| 0)
}

/// A call of each kind.
fn calls(seed: u64, parameters: Parameters) -> Vec<PartCall> {
    let random = &mut Random::new(seed);
    KINDS.iter().map(|&kind| PartCall::honest(random, parameters, kind)).collect()
}

/// A call of each kind in each form, whichever the parameters' own.
fn calls_of_both_forms(seed: u64, parameters: Parameters) -> Vec<PartCall> {
    FORMS.iter().flat_map(|&form| calls(seed, Parameters { form, ..parameters })).collect()
}

/// The call answers `number`, 0 for done, after this change.
#[track_caller]
fn check(call: &PartCall, number: u8, change: impl Fn(&mut PartCall)) {
    let mut call = call.clone();
    change(&mut call);
    let kind = (call.part, call.draws);
    assert_eq!(answer(call), number, "{kind:?}");
}
