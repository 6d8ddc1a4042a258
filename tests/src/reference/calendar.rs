//! The election calendar.

use std::iter::{once, successors};
use std::ops::RangeInclusive;

use super::terms::refusal;

pub const YEARS: RangeInclusive<u32> = 2000..=2199;
pub const MINUTES_OF_A_DAY: u64 = 24 * 60;

/// Year, month and day, wide enough to be wrong.
#[derive(Clone, Copy, Debug, PartialEq, Eq, PartialOrd, Ord)]
pub struct Date {
    pub year: u32,
    pub month: u32,
    pub day: u32,
}

impl Date {
    pub const fn new(year: u32, month: u32, day: u32) -> Self {
        Date { year, month, day }
    }

    /// What stands for a day in a list of holidays.
    pub fn number(self) -> u32 {
        self.year * 10_000 + self.month * 100 + self.day
    }

    pub fn of_number(number: u32) -> Self {
        Date::new(number / 10_000, number / 100 % 100, number % 100)
    }

    /// Whether it is a day of the years 2000 to 2199.
    pub fn exists(self) -> bool {
        YEARS.contains(&self.year)
            && (1..=12).contains(&self.month)
            && (1..=days_of_month(self.year, self.month)).contains(&self.day)
    }
}

fn is_leap(year: u32) -> bool {
    year.is_multiple_of(4) && (!year.is_multiple_of(100) || year.is_multiple_of(400))
}

fn days_of_month(year: u32, month: u32) -> u32 {
    match month {
        2 if is_leap(year) => 29,
        2 => 28,
        4 | 6 | 9 | 11 => 30,
        _ => 31,
    }
}

#[derive(Clone, Copy, Debug, PartialEq, Eq)]
pub enum Weekday {
    Mon,
    Tue,
    Wed,
    Thu,
    Fri,
    Sat,
    Sun,
}

/// A day with its number, which counts from 2000-01-01; it may be behind 2199.
#[derive(Clone, Copy, Debug, PartialEq, Eq)]
pub struct Day {
    pub date: Date,
    pub number: u64,
}

impl Day {
    pub const FIRST: Day = Day { date: Date::new(2000, 1, 1), number: 0 };

    /// Of a date that exists.
    pub fn of(date: Date) -> Self {
        let days_of_year = |year| if is_leap(year) { 366 } else { 365 };
        let years: u32 = (2000..date.year).map(days_of_year).sum();
        let months: u32 = (1..date.month).map(|month| days_of_month(date.year, month)).sum();
        Day { date, number: u64::from(years + months + date.day - 1) }
    }

    pub fn next(self) -> Self {
        let Date { year, month, day } = self.date;
        let date = match (month, day) {
            (12, 31) => Date::new(year + 1, 1, 1),
            _ if day == days_of_month(year, month) => Date::new(year, month + 1, 1),
            _ => Date::new(year, month, day + 1),
        };
        Day { date, number: self.number + 1 }
    }

    /// The days after it, without end.
    pub fn later(self) -> impl Iterator<Item = Day> {
        successors(Some(self.next()), |day| Some(day.next()))
    }

    /// The first day is a Saturday.
    pub fn weekday(self) -> Weekday {
        use Weekday::*;
        [Sat, Sun, Mon, Tue, Wed, Thu, Fri][(self.number % 7) as usize]
    }

    /// The minute at which an hour of the day, 0 to 24, begins.
    fn hour(self, hour: u64) -> u64 {
        self.number * MINUTES_OF_A_DAY + hour * 60
    }

    fn window(self, hours: [u64; 2]) -> Window {
        let [start, end] = hours.map(|hour| self.hour(hour));
        Window { start, end }
    }
}

/// Minutes from 2000-01-01 00:00; the end is not in it.
#[derive(Clone, Copy, Debug, PartialEq, Eq)]
pub struct Window {
    pub start: u64,
    pub end: u64,
}

#[derive(Clone, Copy, Debug, PartialEq, Eq)]
pub struct Windows {
    pub polling: Window,
    pub first_dice: Window,
    pub second_dice: Window,
    pub objections: Window,
}

impl Windows {
    pub fn in_order(&self) -> [Window; 4] {
        [self.polling, self.first_dice, self.second_dice, self.objections]
    }

    /// The eight numbers as the C face has them, one behind the other.
    pub fn numbers(&self) -> [u64; 8] {
        let [a, b, c, d] = self.in_order();
        [a.start, a.end, b.start, b.end, c.start, c.end, d.start, d.end]
    }
}

/// The windows of an election on this day, or 22.
pub fn calendar(election: Date, holidays: &[u32]) -> Result<Windows, u8> {
    if !election.exists() || !holidays_stand(holidays) {
        return Err(refusal::DAY);
    }
    let works = |day: &Day| is_working_day(*day, holidays);
    let working_day_after =
        |day: Day, k: usize| day.later().filter(works).nth(k - 1).expect("no end");
    let polling = Day::of(election);
    let first_dice = working_day_after(polling, 2);
    let second_dice = working_day_after(first_dice, 1);
    let fourteenth = second_dice.later().nth(13).expect("no end");
    let last = once(fourteenth).chain(fourteenth.later()).find(works).expect("no end");
    Ok(Windows {
        polling: polling.window([8, 20]),
        first_dice: first_dice.window([10, 12]),
        second_dice: second_dice.window([10, 12]),
        objections: Window { start: second_dice.hour(12), end: last.hour(24) },
    })
}

/// Every holiday exists and is after the one before it.
fn holidays_stand(holidays: &[u32]) -> bool {
    let mut before = None;
    holidays.iter().all(|&number| {
        let date = Date::of_number(number);
        date.exists() && before.replace(date).is_none_or(|before| before < date)
    })
}

/// Monday to Friday, and not in the list, which is rising.
fn is_working_day(day: Day, holidays: &[u32]) -> bool {
    let listed = holidays.binary_search(&day.date.number()).is_ok();
    !matches!(day.weekday(), Weekday::Sat | Weekday::Sun) && !listed
}

/// The window in which a minute is: 1 polling, 2 first dice, 3 second dice, 4 objections, 0 none.
pub fn window_at(election: Date, holidays: &[u32], minute: u64) -> Result<u32, u8> {
    let windows = calendar(election, holidays)?.in_order();
    let place = windows.iter().position(|window| (window.start..window.end).contains(&minute));
    Ok(place.map_or(0, |place| place as u32 + 1))
}
