//! Ways of getting a call refused, alone and two at once.

use crate::random::Random;
use crate::reference::terms::{refusal, Form};

/// Values of n, and what is answered to them where every slice is as long as three ballots ask for.
pub const LIMITS_OF_N: [(u32, u8); 14] = [
    (0, 3),
    (1, 18),
    (2, 18),
    (1024, 18),
    (1025, 18),
    (4095, 18),
    (4096, 18),
    (4097, 3),
    (5120, 3),
    (65_535, 3),
    (65_536, 3),
    (65_539, 3),
    (69_632, 3),
    (u32::MAX, 3),
];

/// A call of an entry, with everything it is lent.
pub trait Misusable: Clone {
    /// Every misuse that this call can meet.
    fn misuses(&self) -> Vec<Misuse<Self>>;
}

/// One way of getting a call refused.
pub struct Misuse<C> {
    pub number: u8,
    pub name: &'static str,
    change: fn(&mut C),
}

impl<C> Clone for Misuse<C> {
    fn clone(&self) -> Self {
        *self
    }
}

impl<C> Copy for Misuse<C> {}

impl<C> Misuse<C> {
    pub fn new(number: u8, name: &'static str, change: fn(&mut C)) -> Self {
        Misuse { number, name, change }
    }

    pub fn apply(&self, call: &mut C) {
        (self.change)(call)
    }

    /// Its place in the writers' order: 3, then 18, then rising.
    fn order(&self) -> u8 {
        match self.number {
            refusal::LIMITS => 0,
            refusal::LENGTH => 1,
            number => number,
        }
    }
}

/// Runs the call with each misuse alone.
pub fn check_each<C: Misusable>(call: &C, run: impl Fn(C) -> u8) {
    for misuse in call.misuses() {
        let mut call = call.clone();
        misuse.apply(&mut call);
        assert_eq!(run(call), misuse.number, "{}", misuse.name);
    }
}

/// Runs the call with every two misuses that are not met together; the earlier one decides.
pub fn check_pairs<C: Misusable>(call: &C, run: impl Fn(C) -> u8) {
    let misuses = call.misuses();
    for first in &misuses {
        for later in misuses.iter().filter(|later| first.order() < later.order()) {
            let mut call = call.clone();
            later.apply(&mut call);
            first.apply(&mut call);
            assert_eq!(run(call), first.number, "{} and {}", first.name, later.name);
        }
    }
}

/// Up to two misuses; values change before the lengths, and these before the parameters.
pub fn misuse_at_random<C: Misusable>(random: &mut Random, call: &mut C) {
    let misuses = call.misuses();
    let mut chosen: Vec<Misuse<C>> = (0..random.index(3)).map(|_| random.pick(&misuses)).collect();
    chosen.sort_by_key(|misuse| std::cmp::Reverse(misuse.order()));
    chosen.iter().for_each(|misuse| misuse.apply(call));
}

pub fn drop_last<T>(slice: &mut Vec<T>) {
    slice.pop();
}

pub fn last<T>(slice: &mut [T]) -> &mut T {
    slice.last_mut().unwrap()
}

/// The form that it is not.
pub fn other_form(form: &mut Form) {
    *form = match form {
        Form::Unnumbered => Form::Numbered(0x0102_0304),
        Form::Numbered(_) => Form::Unnumbered,
    };
}

/// As long as it would be in the form that it is not.
pub fn length_of_other_form(form: Form, bytes: &mut Vec<u8>) {
    match form {
        Form::Unnumbered => bytes.extend([0xA5; 4]),
        Form::Numbered(_) => bytes.truncate(bytes.len().saturating_sub(4)),
    }
}

/// The mask without its lowest one.
pub fn fewer(mask: u32) -> u32 {
    mask & mask.saturating_sub(1)
}

/// Another value within the limit: so many further, then from 1 again.
pub fn further(value: &mut u32, by: u32, limit: u32) {
    *value = (*value + by - 1) % limit + 1;
}
