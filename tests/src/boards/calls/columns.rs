//! Calls of a column's three entries.

use super::misuse::{drop_last, further, last, Misusable, Misuse};
use crate::boards::parameters;
use crate::random::Random;
use crate::reference::terms::{refusal, MAX_BALLOTS};

#[derive(Clone, Copy, Debug, PartialEq, Eq)]
pub enum Entry {
    RowServer,
    ThirdRowOffsets,
    Split,
}

pub const ENTRIES: [Entry; 3] = [Entry::RowServer, Entry::ThirdRowOffsets, Entry::Split];

/// A call of one of them; `first` and `second` are its two slices of numbers.
#[derive(Clone, Debug)]
pub struct ColumnCall {
    pub entry: Entry,
    pub modulus: u32,
    pub n: u32,
    pub first: Vec<u32>,
    pub second: Vec<u32>,
    /// The row server's.
    pub permutation: Vec<u16>,
    pub out: Vec<u32>,
}

impl ColumnCall {
    /// A call that is not refused, noise in its buffer.
    pub fn honest(random: &mut Random, entry: Entry, modulus: u32, n: u32) -> Self {
        let mut numbers = || (0..n).map(|_| random.number(modulus)).collect();
        let (first, second) = (numbers(), numbers());
        let permutation = random.permutation(n as usize);
        let out = random.words(n as usize);
        ColumnCall { entry, modulus, n, first, second, permutation, out }
    }

    pub fn any(random: &mut Random, entry: Entry, n: u32) -> Self {
        let parameters = parameters(random, n, 1);
        Self::honest(random, entry, parameters.modulus, parameters.n)
    }
}

impl Misusable for ColumnCall {
    fn misuses(&self) -> Vec<Misuse<Self>> {
        let mut all = [limits(), lengths(), numbers()].concat();
        if self.entry == Entry::RowServer {
            all.extend(permutations(self.n > 1));
        }
        all
    }
}

/// Rule 3.
fn limits() -> Vec<Misuse<ColumnCall>> {
    let rule = |name, change| Misuse::new(refusal::LIMITS, name, change);
    vec![
        rule("M = 0", |call| call.modulus = 0),
        rule("M = 1", |call| call.modulus = 1),
        rule("n = 0", |call| call.n = 0),
        rule("n = 0 and nothing lent", |call| {
            call.n = 0;
            resize(call, 0);
        }),
        rule("n = 4,097", |call| call.n = 4097),
        rule("4,097 of each", |call| {
            call.n = 4097;
            resize(call, 4097);
        }),
        rule("n by 65,536 too large", |call| call.n |= 65_536),
        rule("n highest", |call| call.n = u32::MAX),
    ]
}

/// Lends so many of everything.
fn resize(call: &mut ColumnCall, length: u16) {
    for slice in [&mut call.first, &mut call.second, &mut call.out] {
        slice.resize(usize::from(length), 0);
    }
    call.permutation = (0..length).collect();
}

/// Rule 18.
fn lengths() -> Vec<Misuse<ColumnCall>> {
    let rule = |name, change| Misuse::new(refusal::LENGTH, name, change);
    vec![
        rule("first short", |call| drop_last(&mut call.first)),
        rule("first long", |call| call.first.push(0)),
        rule("second short", |call| drop_last(&mut call.second)),
        rule("second long", |call| call.second.push(0)),
        rule("buffer short", |call| drop_last(&mut call.out)),
        rule("buffer long", |call| call.out.push(0xA5A5)),
        rule("no buffer", |call| call.out.clear()),
        rule("another n", |call| further(&mut call.n, 1, MAX_BALLOTS)),
        rule("1,024 ballots more", |call| further(&mut call.n, 1024, MAX_BALLOTS)),
    ]
}

/// Rule 10, at the first and last place of each slice.
fn numbers() -> Vec<Misuse<ColumnCall>> {
    let rule = |name, change| Misuse::new(refusal::NUMBER, name, change);
    vec![
        rule("first slice starts with M", |call| call.first[0] = call.modulus),
        rule("first slice ends with M", |call| *last(&mut call.first) = call.modulus),
        rule("first slice ends with the highest", |call| *last(&mut call.first) = u32::MAX),
        rule("second slice starts with M", |call| call.second[0] = call.modulus),
        rule("second slice ends with M", |call| *last(&mut call.second) = call.modulus),
        rule("second slice ends with the highest", |call| *last(&mut call.second) = u32::MAX),
    ]
}

/// Rules 18 and 19 on the permutation.
fn permutations(two_places: bool) -> Vec<Misuse<ColumnCall>> {
    let none = |name, change| Misuse::new(refusal::PERMUTATION, name, change);
    let mut all: Vec<Misuse<ColumnCall>> = vec![
        Misuse::new(refusal::LENGTH, "a place less", |call| drop_last(&mut call.permutation)),
        Misuse::new(refusal::LENGTH, "a place more", |call| call.permutation.push(call.n as u16)),
        none("place n", |call| call.permutation[0] = call.n as u16),
        none("place 4,096", |call| call.permutation[0] = 4096),
        none("last place highest", |call| *last(&mut call.permutation) = u16::MAX),
    ];
    if two_places {
        all.push(none("first place again", |call| {
            *last(&mut call.permutation) = call.permutation[0];
        }));
    }
    all
}
