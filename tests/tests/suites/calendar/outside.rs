//! Values worked out by another program, whose own library knows the dates. days.txt: the first day
//! of each month, its number and its weekday. windows.txt: elections with their holidays, and the
//! eight numbers.

use super::{check, date, day, list, minute};
use crate::subject::calendar;
use paddockyear_tests::days::{easter, every_day, public_holidays, DAYS};
use paddockyear_tests::reference::calendar::Day;

const DAYS_TABLE: &str = include_str!("days.txt");
const WINDOWS_TABLE: &str = include_str!("windows.txt");

/// The reference's count, and the one that the suite leans on.
#[test]
fn numbers_and_weekdays() {
    assert_eq!(DAYS_TABLE.lines().count(), 2400);
    for line in DAYS_TABLE.lines() {
        let [text, number, weekday] = line.split(' ').collect::<Vec<_>>().try_into().unwrap();
        let first = Day::of(date(text));
        assert_eq!(first.number.to_string(), number, "{text}");
        assert_eq!(format!("{:?}", first.weekday()), weekday, "{text}");
        assert_eq!(day(text).to_string(), number, "{text}");
    }
}

/// How many days behind an election the first dice are, by its weekday, without holidays.
fn days_to_first_dice(weekday: &str) -> usize {
    match weekday {
        "Mon" | "Tue" | "Wed" | "Sun" => 2,
        "Sat" => 3,
        _ => 4,
    }
}

#[test]
fn elections_on_the_first_of_a_month() {
    for line in DAYS_TABLE.lines() {
        let [text, number, weekday] = line.split(' ').collect::<Vec<_>>().try_into().unwrap();
        let number: usize = number.parse().unwrap();
        let windows = calendar(date(text), &[]).unwrap();
        assert_eq!(windows.polling.start, minute(number, 8), "{text}");
        let first_dice = number + days_to_first_dice(weekday);
        assert_eq!(windows.first_dice.start, minute(first_dice, 10), "{text}");
    }
}

#[test]
fn windows() {
    assert_eq!(WINDOWS_TABLE.lines().count(), 60);
    for line in WINDOWS_TABLE.lines() {
        let (dates, due) = line.split_once(" : ").unwrap();
        let dates: Vec<&str> = dates.split(' ').collect();
        let due: Vec<u64> = due.split(' ').map(|number| number.parse().unwrap()).collect();
        check(day(dates[0]), &list(&dates[1..]), due.try_into().unwrap());
    }
}

/// As many days as the paper's years have, and each behind the one before it.
#[test]
fn the_count_of_days() {
    let days = every_day();
    assert_eq!(days.len(), DAYS);
    assert_eq!((days[0], days[DAYS - 1]), (date("2000-01-01"), date("2199-12-31")));
    let mut later = Day::FIRST.later();
    for (number, &date) in (1..).zip(&days[1..]) {
        assert_eq!(later.next(), Some(Day { date, number }));
        assert_eq!(Day::of(date).number, number);
    }
}

#[test]
fn easter_sundays() {
    for (year, due) in [
        (2000, "2000-04-23"),
        (2008, "2008-03-23"),
        (2019, "2019-04-21"),
        (2024, "2024-03-31"),
        (2025, "2025-04-20"),
        (2026, "2026-04-05"),
        (2038, "2038-04-25"),
        (2049, "2049-04-18"),
        (2076, "2076-04-19"),
        (2100, "2100-03-28"),
        (2106, "2106-04-18"),
    ] {
        assert_eq!(easter(year), day(due));
    }
    let holidays = public_holidays();
    assert!(holidays.len() > 2_700 && holidays.windows(2).all(|pair| pair[0] < pair[1]));
}
