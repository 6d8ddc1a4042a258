//! The election calendar.

use std::ptr::null;

use crate::reference::calendar::Date;

mod faces {
    extern "C" {
        pub fn paddockyear_calendar(
            year: u32,
            month: u32,
            day: u32,
            holidays: *const u32,
            holidays_len: usize,
            windows: *mut u64,
        ) -> u32;

        pub fn paddockyear_window_at(
            year: u32,
            month: u32,
            day: u32,
            holidays: *const u32,
            holidays_len: usize,
            minute: u64,
            window: *mut u32,
        ) -> u32;
    }
}

/// A list of holidays as it is lent: none is an empty one with a null pointer.
pub type Holidays<'a> = Option<&'a [u32]>;

fn lent(holidays: Holidays) -> (*const u32, usize) {
    holidays.map_or((null(), 0), |holidays| (holidays.as_ptr(), holidays.len()))
}

/// 0, or the refusal's number; start and end of each window, one behind the other, are lent.
pub fn calendar(election: Date, holidays: Holidays, windows: &mut [u64; 8]) -> u32 {
    let (Date { year, month, day }, (start, length)) = (election, lent(holidays));
    let windows = windows.as_mut_ptr();
    // SAFETY: the face reads the holidays and writes the eight numbers.
    unsafe { faces::paddockyear_calendar(year, month, day, start, length, windows) }
}

/// 0, or the refusal's number; the window's number is lent.
pub fn window_at(election: Date, holidays: Holidays, minute: u64, window: &mut u32) -> u32 {
    let (Date { year, month, day }, (start, length)) = (election, lent(holidays));
    // SAFETY: the face reads the holidays and writes the window's number.
    unsafe { faces::paddockyear_window_at(year, month, day, start, length, minute, window) }
}
