//! Calls of the tablet.

use super::misuse::{drop_last, Misusable, Misuse};
use crate::boards::{form, MODULI};
use crate::random::Random;
use crate::reference::tablet::SplitVote;
use crate::reference::terms::{refusal, Form};

#[derive(Clone, Debug)]
pub struct TabletCall {
    pub form: Form,
    pub modulus: u32,
    pub id: u32,
    pub split: SplitVote,
    pub keys: Vec<u8>,
    pub command: Vec<u8>,
    pub receipt: Vec<u8>,
}

impl TabletCall {
    /// A call that is not refused, of either form, noise in its buffers.
    pub fn honest(random: &mut Random) -> Self {
        let form = form(random);
        let modulus = random.pick(&MODULI);
        let mut number = || random.number(modulus);
        let split = SplitVote {
            vote: number(),
            shares: [number(), number()],
            firsts: [number(), number(), number()],
        };
        TabletCall {
            form,
            modulus,
            id: random.word() as u32,
            split,
            keys: random.bytes(192),
            command: random.bytes(197),
            receipt: random.bytes(32),
        }
    }
}

impl Misusable for TabletCall {
    fn misuses(&self) -> Vec<Misuse<Self>> {
        [limits(), lengths(), numbers()].concat()
    }
}

/// Rule 3.
fn limits() -> Vec<Misuse<TabletCall>> {
    let rule = |name, change| Misuse::new(refusal::LIMITS, name, change);
    vec![rule("M = 0", |call| call.modulus = 0), rule("M = 1", |call| call.modulus = 1)]
}

/// Rule 18.
fn lengths() -> Vec<Misuse<TabletCall>> {
    let rule = |name, change| Misuse::new(refusal::LENGTH, name, change);
    vec![
        rule("a key byte less", |call| drop_last(&mut call.keys)),
        rule("a key byte more", |call| call.keys.push(0)),
        rule("no keys", |call| call.keys.clear()),
        rule("command short", |call| drop_last(&mut call.command)),
        rule("command long", |call| call.command.push(0xA5)),
        rule("no command", |call| call.command.clear()),
        rule("receipt short", |call| drop_last(&mut call.receipt)),
        rule("receipt long", |call| call.receipt.push(0xA5)),
        rule("no receipt", |call| call.receipt.clear()),
    ]
}

/// Rule 10.
fn numbers() -> Vec<Misuse<TabletCall>> {
    let rule = |name, change| Misuse::new(refusal::NUMBER, name, change);
    vec![
        rule("vote M", |call| call.split.vote = call.modulus),
        rule("x = M", |call| call.split.shares[0] = call.modulus),
        rule("y = M", |call| call.split.shares[1] = call.modulus),
        rule("u1 = M", |call| call.split.firsts[0] = call.modulus),
        rule("u2 = M", |call| call.split.firsts[1] = call.modulus),
        rule("u3 = M", |call| call.split.firsts[2] = call.modulus),
        rule("vote highest", |call| call.split.vote = u32::MAX),
        rule("u3 highest", |call| call.split.firsts[2] = u32::MAX),
    ]
}
