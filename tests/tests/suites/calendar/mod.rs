//! What the election calendar answers: windows, minutes and refusals.

mod every_day;
mod outside;
mod refusals;
mod samples;

use std::ops::Range;

use crate::subject::{calendar, window_at};
use paddockyear_tests::days::{every_day, is_weekend, number, numbers, DAYS};
use paddockyear_tests::reference::calendar::Date;

/// The date in a text such as 2026-03-31, whether it exists or not.
fn date(text: &str) -> Date {
    let part = |place: Range<usize>| text[place].parse().expect("digits");
    assert_eq!(text.len(), 10);
    Date::new(part(0..4), part(5..7), part(8..10))
}

fn day(text: &str) -> usize {
    let Date { year, month, day } = date(text);
    paddockyear_tests::days::day(year, month, day)
}

fn list(texts: &[&str]) -> Vec<u32> {
    texts.iter().map(|text| number(date(text))).collect()
}

/// A minute by its day and its hour.
fn minute(day: usize, hour: u64) -> u64 {
    (24 * day as u64 + hour) * 60
}

/// The eight numbers that are due, by the days of polling and dice and the last of the objections.
fn eight([polling, first, second, last]: [usize; 4]) -> [u64; 8] {
    [
        minute(polling, 8),
        minute(polling, 20),
        minute(first, 10),
        minute(first, 12),
        minute(second, 10),
        minute(second, 12),
        minute(second, 12),
        minute(last, 24),
    ]
}

fn check_windows(election: usize, holidays: &[u32], due: [u64; 8]) {
    let date = every_day()[election];
    let windows = calendar(date, holidays).map(|windows| windows.numbers());
    assert_eq!(windows, Ok(due), "{date:?}, {} holidays", holidays.len());
}

/// The windows of an election, and what the minutes at and beside their bounds are answered.
fn check(election: usize, holidays: &[u32], due: [u64; 8]) {
    check_windows(election, holidays, due);
    let date = every_day()[election];
    let bounds = due.into_iter().flat_map(|bound| [bound - 1, bound]);
    let answers = [0, 1, 1, 0, 0, 2, 2, 0, 0, 3, 3, 4, 3, 4, 4, 0];
    for (minute, answer) in bounds.zip(answers).chain([(0, 0), (u64::MAX, 0)]) {
        let found = window_at(date, holidays, minute);
        assert_eq!(found, Ok(answer), "minute {minute}, {date:?}, {} holidays", holidays.len());
    }
}

/// How far past 2199 working days are listed.
const PAST: usize = 40;

/// Some holidays, rising, and the working days that they leave.
struct Listed {
    holidays: Vec<usize>,
    numbers: Vec<u32>,
    working: Vec<usize>,
}

impl Listed {
    fn new(holidays: Vec<usize>) -> Self {
        Self::of_span(0..DAYS + PAST, holidays)
    }

    /// With the working days of a span of days only.
    fn of_span(span: Range<usize>, holidays: Vec<usize>) -> Self {
        let (mut working, mut left) = (Vec::new(), &holidays[..]);
        for day in span {
            left = &left[left.partition_point(|&holiday| holiday < day)..];
            if !is_weekend(day) && left.first() != Some(&day) {
                working.push(day);
            }
        }
        Listed { numbers: numbers(&holidays), holidays, working }
    }

    /// The days of polling and dice and the last of the objections: among the working days each has
    /// its place.
    fn days(&self, election: usize) -> [usize; 4] {
        let from = |day: usize| self.working.partition_point(|&working| working < day);
        let next = from(election + 1);
        let [first, second] = [next + 1, next + 2].map(|place| self.working[place]);
        [election, first, second, self.working[from(second + 14)]]
    }

    /// The holidays from the day before the election to the day behind the last of the objections.
    fn around(&self, days: [usize; 4]) -> &[u32] {
        let place = |day: usize| self.holidays.partition_point(|&holiday| holiday < day);
        &self.numbers[place(days[0].saturating_sub(1))..place(days[3] + 2)]
    }

    /// With the holidays around the election.
    fn check(&self, election: usize) -> [usize; 4] {
        let days = self.days(election);
        check(election, self.around(days), eight(days));
        days
    }

    /// With all holidays of the list.
    fn check_whole(&self, election: usize) {
        check(election, &self.numbers, eight(self.days(election)));
    }
}
