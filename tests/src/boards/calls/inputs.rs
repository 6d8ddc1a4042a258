//! Misuses of the inputs that every part and the election are given.

use super::misuse::{drop_last, further, last, Misuse};
use crate::boards::copies::{copy_ballot, copy_opening, Slot};
use crate::reference::terms::{refusal, Form, Parameters, MAX_BALLOTS, MAX_M};
use crate::reference::writer::Inputs;

/// A call that is given inputs.
pub trait Given {
    fn inputs(&mut self) -> &mut Inputs;
}

/// Every misuse of inputs with these parameters. With 0C no inputs make a copied ballot.
pub fn misuses<C: Given>(parameters: &Parameters) -> Vec<Misuse<C>> {
    let mut all = [limits(), lengths(), numbers(), places()].concat();
    if parameters.n > 1 {
        all.extend(two_ballots());
    }
    if parameters.n > 1 && parameters.form == Form::Unnumbered {
        all.extend(copies());
    }
    all
}

/// Rule 3.
fn limits<C: Given>() -> Vec<Misuse<C>> {
    let rule = |name, change| Misuse::new(refusal::LIMITS, name, change);
    vec![
        rule("M = 0", |call| call.inputs().parameters.modulus = 0),
        rule("M = 1", |call| call.inputs().parameters.modulus = 1),
        rule("n = 0", |call| call.inputs().parameters.n = 0),
        rule("n = 4,097", |call| call.inputs().parameters.n = 4097),
        rule("n highest", |call| call.inputs().parameters.n = u32::MAX),
        rule("n by 65,536 too large", |call| call.inputs().parameters.n |= 65_536),
        rule("m = 0", |call| call.inputs().parameters.m = 0),
        rule("m = 13", |call| call.inputs().parameters.m = 13),
        rule("m highest", |call| call.inputs().parameters.m = u32::MAX),
        rule("m by 256 too large", |call| call.inputs().parameters.m |= 256),
    ]
}

/// Rule 18.
fn lengths<C: Given>() -> Vec<Misuse<C>> {
    let rule = |name, change| Misuse::new(refusal::LENGTH, name, change);
    vec![
        rule("an id less", |call| drop_last(&mut call.inputs().ids)),
        rule("an id more", |call| call.inputs().ids.push(u32::MAX)),
        rule("no ids", |call| call.inputs().ids.clear()),
        rule("a vote less", |call| drop_last(&mut call.inputs().votes)),
        rule("a vote more", |call| call.inputs().votes.push(0)),
        rule("a number less", |call| drop_last(&mut call.inputs().numbers)),
        rule("a number more", |call| call.inputs().numbers.push(0)),
        rule("a place less", |call| drop_last(&mut call.inputs().permutations)),
        rule("a place more", |call| call.inputs().permutations.push(0)),
        rule("a key byte less", |call| drop_last(&mut call.inputs().keys)),
        rule("a key byte more", |call| call.inputs().keys.push(0)),
        rule("no keys", |call| call.inputs().keys.clear()),
        rule("another n", |call| further(&mut call.inputs().parameters.n, 1, MAX_BALLOTS)),
        rule("1,024 ballots more", |call| {
            further(&mut call.inputs().parameters.n, 1024, MAX_BALLOTS);
        }),
        rule("another m", |call| further(&mut call.inputs().parameters.m, 1, MAX_M)),
    ]
}

/// Rule 10, also at the last place of each slice.
fn numbers<C: Given>() -> Vec<Misuse<C>> {
    let rule = |name, change| Misuse::new(refusal::NUMBER, name, change);
    vec![
        rule("first vote M", |call| {
            let inputs = call.inputs();
            inputs.votes[0] = inputs.parameters.modulus;
        }),
        rule("last vote highest", |call| *last(&mut call.inputs().votes) = u32::MAX),
        rule("first number M", |call| {
            let inputs = call.inputs();
            inputs.numbers[0] = inputs.parameters.modulus;
        }),
        rule("first offset M", |call| {
            let inputs = call.inputs();
            inputs.numbers[5 * inputs.parameters.ballots()] = inputs.parameters.modulus;
        }),
        rule("last number highest", |call| *last(&mut call.inputs().numbers) = u32::MAX),
    ]
}

/// Rule 19.
fn places<C: Given>() -> Vec<Misuse<C>> {
    let rule = |name, change| Misuse::new(refusal::PERMUTATION, name, change);
    vec![
        rule("place n", |call| {
            let inputs = call.inputs();
            inputs.permutations[0] = inputs.parameters.n as u16;
        }),
        rule("last place highest", |call| *last(&mut call.inputs().permutations) = u16::MAX),
    ]
}

/// Rules 5 and 19 where there are two ballots.
fn two_ballots<C: Given>() -> Vec<Misuse<C>> {
    vec![
        Misuse::new(refusal::ID, "id as before", |call| {
            let ids = &mut call.inputs().ids;
            ids[1] = ids[0];
        }),
        Misuse::new(refusal::ID, "last id 0", |call| *last(&mut call.inputs().ids) = 0),
        Misuse::new(refusal::PERMUTATION, "place twice", |call| {
            let places = &mut call.inputs().permutations;
            places[0] = places[1];
        }),
    ]
}

/// Rule 21.
fn copies<C: Given>() -> Vec<Misuse<C>> {
    let rule = |name, change| Misuse::new(refusal::COPIED_BALLOT, name, change);
    vec![
        rule("first ballot cast again", |call| {
            let last = call.inputs().parameters.ballots() - 1;
            copy_ballot(call.inputs(), 0, last);
        }),
        rule("a commitment of the ballot before", |call| {
            let (ballot, slot) = (call.inputs().parameters.ballots() - 1, 3);
            let before = Slot { ballot: ballot - 1, slot: 3 };
            copy_opening(call.inputs(), before, Slot { ballot, slot });
        }),
        rule("a commitment at another place", |call| {
            let (from, to) = (Slot { ballot: 0, slot: 5 }, Slot { ballot: 1, slot: 0 });
            copy_opening(call.inputs(), from, to);
        }),
    ]
}
