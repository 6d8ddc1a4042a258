//! The election calendar.

use crate::ffi::calendar::{self as product, Holidays};
use crate::lent::{number_of, Lent};
use crate::reference::calendar::{self as reference, Date, Windows};

/// What is lent holds before the call, and after one that is refused.
fn noise() -> [u64; 8] {
    std::array::from_fn(|at| 0xA5A5_5A5A_0F0F_F0F0 + at as u64)
}

const WINDOW_NOISE: [u32; 1] = [0x5A5A_A5A5];

/// The list as it is, and an empty one with a null pointer too.
fn lendings(holidays: &[u32]) -> impl Iterator<Item = Holidays<'_>> {
    [Some(holidays), None].into_iter().take(if holidays.is_empty() { 2 } else { 1 })
}

/// For messages: a list may have every day of 200 years.
fn beginning(holidays: &[u32]) -> &[u32] {
    &holidays[..holidays.len().min(50)]
}

pub fn calendar(election: Date, holidays: &[u32]) -> Result<Windows, u8> {
    let due = reference::calendar(election, holidays);
    let numbers = due.map_or_else(|_| noise(), |windows| windows.numbers());
    for list in lendings(holidays) {
        let mut lent = Lent::new(&noise());
        let eight: &mut [u64; 8] = lent.slice().try_into().expect("eight numbers");
        let found = product::calendar(election, list, eight);
        let call = (election, beginning(holidays), holidays.len());
        assert_eq!((found, &*eight), (number_of(&due), &numbers), "{call:?}");
        lent.check(&numbers);
    }
    due
}

pub fn window_at(election: Date, holidays: &[u32], minute: u64) -> Result<u32, u8> {
    let due = reference::window_at(election, holidays, minute);
    let window = due.map_or(WINDOW_NOISE, |window| [window]);
    for list in lendings(holidays) {
        let mut lent = Lent::new(&WINDOW_NOISE);
        let found = product::window_at(election, list, minute, &mut lent.slice()[0]);
        let call = (election, beginning(holidays), holidays.len(), minute);
        assert_eq!((found, &*lent.slice()), (number_of(&due), &window[..]), "{call:?}");
        lent.check(&window);
    }
    due
}
