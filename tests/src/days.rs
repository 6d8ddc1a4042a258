//! Every day that exists in the years 2000 to 2199, counted one by one, and lists of holidays. A
//! day is its place among them; the first is a Saturday.

use std::sync::OnceLock;

use crate::random::Random;
use crate::reference::calendar::Date;

pub const DAYS: usize = 73_049;

/// The lengths of the months, but for the leap years' second.
const MONTHS: [u32; 12] = [31, 28, 31, 30, 31, 30, 31, 31, 30, 31, 30, 31];

/// The dates, rising.
pub fn every_day() -> &'static [Date] {
    static DATES: OnceLock<Vec<Date>> = OnceLock::new();
    DATES.get_or_init(|| (2000..=2199).flat_map(days_of_year).collect())
}

fn days_of_year(year: u32) -> impl Iterator<Item = Date> {
    let leap = year.is_multiple_of(4) && year != 2100;
    let length = move |month, days| if leap && month == 2 { 29 } else { days };
    (1..).zip(MONTHS).flat_map(move |(month, days)| {
        (1..=length(month, days)).map(move |day| Date::new(year, month, day))
    })
}

/// The day with this date, which exists.
pub fn day(year: u32, month: u32, day: u32) -> usize {
    every_day().binary_search(&Date::new(year, month, day)).expect("a day of 2000 to 2199")
}

/// Days as a list of holidays has them.
pub fn numbers(days: &[usize]) -> Vec<u32> {
    days.iter().map(|&day| number(every_day()[day])).collect()
}

/// By the digits: years have four.
pub fn number(date: Date) -> u32 {
    let digits = format!("{}{:02}{:02}", date.year, date.month, date.day);
    digits.parse().expect("eight digits")
}

pub fn is_weekend(day: usize) -> bool {
    matches!(day % 7, 0 | 1)
}

/// Easter Sunday: the first Sunday after the full moon that the Church reckons from March 21 on.
pub fn easter(year: u32) -> usize {
    let century = year / 100;
    let moon = 15 + century - century / 4 - (8 * century + 13) / 25;
    let golden = year % 19;
    let age = (19 * golden + moon) % 30;
    let early = age == 29 || (age == 28 && golden > 10);
    let full_moon = day(year, 3, 21) + age as usize - usize::from(early);
    (full_moon + 1..).find(|day| day % 7 == 1).expect("a Sunday each week")
}

/// Good Friday, Easter Monday, Ascension Day, Whit Monday and some fixed days of all years, rising.
pub fn public_holidays() -> Vec<usize> {
    let fixed = [(1, 1), (1, 6), (5, 1), (8, 15), (10, 3), (11, 1), (12, 24), (12, 25), (12, 26)];
    let of_year = |year| {
        let fixed = fixed.map(|(month, date)| day(year, month, date));
        let easter = easter(year);
        let movable = [easter - 2, easter + 1, easter + 39, easter + 50];
        [&fixed[..], &movable, &[day(year, 12, 31)]].concat()
    };
    let mut days: Vec<usize> = (2000..=2199).flat_map(of_year).collect();
    days.sort_unstable();
    days.dedup();
    days
}

pub fn weekends() -> Vec<usize> {
    (0..DAYS).filter(|&day| is_weekend(day)).collect()
}

/// Each day with a chance of one in so many.
pub fn some_days(random: &mut Random, one_in: u64) -> Vec<usize> {
    (0..DAYS).filter(|_| random.below(one_in) == 0).collect()
}

/// Runs of holidays, of up to so many days, with gaps of up to as many.
pub fn runs(random: &mut Random, longest: usize) -> Vec<usize> {
    let mut days = Vec::new();
    let mut next = 0;
    while next < DAYS {
        let end = (next + 1 + random.index(longest)).min(DAYS);
        days.extend(next..end);
        next = end + 1 + random.index(longest);
    }
    days
}
