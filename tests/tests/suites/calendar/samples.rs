//! Elections worked out by hand.

use super::{check, date, day, eight, list, minute};
use crate::subject::{calendar, window_at};

/// An election with these holidays, and the days of the dice and the last of the objections.
fn due(election: &str, holidays: &[&str], days: [&str; 3]) {
    let [first, second, last] = days.map(day);
    check(day(election), &list(holidays), eight([day(election), first, second, last]));
}

#[test]
fn first_days() {
    let windows = calendar(date("2000-01-01"), &[]).unwrap();
    assert_eq!(windows.numbers(), [480, 1200, 4920, 5040, 6360, 6480, 6480, 27_360]);
    let windows = calendar(date("2000-01-03"), &[]).unwrap();
    assert_eq!(windows.numbers(), [3360, 4080, 6360, 6480, 7800, 7920, 7920, 28_800]);
    due("2000-01-01", &[], ["2000-01-04", "2000-01-05", "2000-01-19"]);
    due("2000-01-01", &["2000-01-01"], ["2000-01-04", "2000-01-05", "2000-01-19"]);
    due("2000-01-01", &["2000-01-03"], ["2000-01-05", "2000-01-06", "2000-01-20"]);
}

#[test]
fn every_weekday() {
    due("2026-06-08", &[], ["2026-06-10", "2026-06-11", "2026-06-25"]);
    due("2026-06-09", &[], ["2026-06-11", "2026-06-12", "2026-06-26"]);
    due("2026-06-10", &[], ["2026-06-12", "2026-06-15", "2026-06-29"]);
    due("2026-06-11", &[], ["2026-06-15", "2026-06-16", "2026-06-30"]);
    due("2026-06-12", &[], ["2026-06-16", "2026-06-17", "2026-07-01"]);
    due("2026-06-13", &[], ["2026-06-16", "2026-06-17", "2026-07-01"]);
    due("2026-06-14", &[], ["2026-06-16", "2026-06-17", "2026-07-01"]);
}

#[test]
fn leap_days() {
    due("2024-02-29", &[], ["2024-03-04", "2024-03-05", "2024-03-19"]);
    due("2024-02-27", &[], ["2024-02-29", "2024-03-01", "2024-03-15"]);
    due("2024-02-28", &[], ["2024-03-01", "2024-03-04", "2024-03-18"]);
    due("2024-02-28", &["2024-02-29"], ["2024-03-04", "2024-03-05", "2024-03-19"]);
    due("2000-02-28", &[], ["2000-03-01", "2000-03-02", "2000-03-16"]);
    due("2000-02-28", &["2000-02-29"], ["2000-03-02", "2000-03-03", "2000-03-17"]);
    due("2023-02-27", &[], ["2023-03-01", "2023-03-02", "2023-03-16"]);
    due("2096-02-29", &[], ["2096-03-02", "2096-03-05", "2096-03-19"]);
}

/// 2100 has no leap day: February 28 is a Sunday, and March 1 the day after it.
#[test]
fn the_century() {
    due("2100-02-25", &[], ["2100-03-01", "2100-03-02", "2100-03-16"]);
    due("2100-02-26", &[], ["2100-03-02", "2100-03-03", "2100-03-17"]);
    due("2100-02-28", &[], ["2100-03-02", "2100-03-03", "2100-03-17"]);
    due("2100-02-28", &["2100-03-01"], ["2100-03-03", "2100-03-04", "2100-03-18"]);
    due("2100-03-01", &["2100-02-28"], ["2100-03-03", "2100-03-04", "2100-03-18"]);
    due("2100-02-15", &[], ["2100-02-17", "2100-02-18", "2100-03-04"]);
    due("2099-12-31", &["2100-01-01"], ["2100-01-05", "2100-01-06", "2100-01-20"]);
}

#[test]
fn the_end_of_a_year() {
    due("2026-12-30", &[], ["2027-01-01", "2027-01-04", "2027-01-18"]);
    due("2026-12-30", &["2027-01-01"], ["2027-01-04", "2027-01-05", "2027-01-19"]);
    let christmas = ["2026-12-24", "2026-12-25", "2026-12-26", "2026-12-31", "2027-01-01"];
    due("2026-12-23", &christmas, ["2026-12-29", "2026-12-30", "2027-01-13"]);
    due("2026-12-11", &christmas, ["2026-12-15", "2026-12-16", "2026-12-30"]);
    due("2026-12-14", &christmas, ["2026-12-16", "2026-12-17", "2027-01-04"]);
}

/// Windows that run past 2199, where weekends are and no holidays. The last day is a Tuesday.
#[test]
fn the_last_days() {
    let last = day("2199-12-31");
    let january = |day| last + day;
    check(last, &[], eight([last, january(2), january(3), january(17)]));
    check(last, &list(&["2199-12-31"]), eight([last, january(2), january(3), january(17)]));
    check(last - 1, &[], eight([last - 1, january(1), january(2), january(16)]));
    check(last - 2, &[], eight([last - 2, last, january(1), january(15)]));
    let holiday = list(&["2199-12-31"]);
    check(last - 2, &holiday, eight([last - 2, january(1), january(2), january(16)]));
    let [friday, first, second] = ["2199-12-13", "2199-12-17", "2199-12-18"].map(day);
    check(friday, &[], eight([friday, first, second, january(1)]));
    let windows = calendar(date("2199-12-31"), &[]).unwrap().numbers();
    assert_eq!(windows[..4], [105_189_600, 105_190_320, 105_192_600, 105_192_720]);
    assert_eq!(windows[4..], [105_194_040, 105_194_160, 105_194_160, 105_215_040]);
}

#[test]
fn a_friday_before_a_holiday() {
    due("2026-05-22", &["2026-05-25"], ["2026-05-27", "2026-05-28", "2026-06-11"]);
    let days = ["2026-05-28", "2026-05-29", "2026-06-12"];
    due("2026-05-22", &["2026-05-25", "2026-05-26"], days);
    due("2026-05-22", &["2026-05-25", "2026-05-27"], days);
    due("2026-05-22", &["2026-05-26", "2026-05-27"], days);
    due("2026-05-22", &["2026-05-25", "2026-05-28"], ["2026-05-27", "2026-05-29", "2026-06-12"]);
    due("2026-05-22", &["2026-05-28"], ["2026-05-26", "2026-05-27", "2026-06-10"]);
}

#[test]
fn around_easter() {
    let easter = ["2026-04-03", "2026-04-06"];
    due("2026-03-31", &easter, ["2026-04-02", "2026-04-07", "2026-04-21"]);
    due("2026-04-01", &easter, ["2026-04-07", "2026-04-08", "2026-04-22"]);
    due("2026-04-05", &easter, ["2026-04-08", "2026-04-09", "2026-04-23"]);
    due("2026-03-17", &easter, ["2026-03-19", "2026-03-20", "2026-04-07"]);
}

/// The fourteenth day is a Friday: what is listed of it and the days behind it counts.
#[test]
fn a_fourteenth_day_that_is_none() {
    let [first, second] = ["2026-04-02", "2026-04-03"];
    let ends = |holidays: &[&str], last| due("2026-03-31", holidays, [first, second, last]);
    ends(&[], "2026-04-17");
    ends(&["2026-04-17"], "2026-04-20");
    ends(&["2026-04-17", "2026-04-20"], "2026-04-21");
    ends(&["2026-04-17", "2026-04-18", "2026-04-19", "2026-04-20", "2026-04-21"], "2026-04-22");
    ends(&["2026-04-17", "2026-04-21"], "2026-04-20");
    ends(&["2026-04-16", "2026-04-20"], "2026-04-17");
    ends(&["2026-04-06", "2026-04-07", "2026-04-08", "2026-04-16"], "2026-04-17");
}

/// A part of a longer list is lent: what stands around it does not count.
#[test]
fn a_part_of_a_list() {
    let whole = list(&["2026-04-02", "2026-04-17", "2026-04-20", "2026-04-21"]);
    let days = ["2026-03-31", "2026-04-02", "2026-04-03"].map(day);
    let due = |part: &[u32], last| {
        let [polling, first, second] = days;
        check(polling, part, eight([polling, first, second, day(last)]));
    };
    due(&whole[1..], "2026-04-22");
    due(&whole[1..3], "2026-04-21");
    due(&whole[1..2], "2026-04-20");
    due(&whole[1..1], "2026-04-17");
    due(&whole[2..], "2026-04-17");
}

/// The election's own day, and any before it, may be listed or not.
#[test]
fn election_on_a_holiday_or_at_a_weekend() {
    let days = ["2026-05-05", "2026-05-06", "2026-05-20"];
    for election in ["2026-05-01", "2026-05-02", "2026-05-03"] {
        due(election, &[], days);
        due(election, &[election], days);
        due(election, &["2025-05-05", "2026-04-30", "2026-05-01"], days);
        due(election, &["2026-05-01", "2026-05-02", "2026-05-03"], days);
    }
}

#[test]
fn holidays_at_weekends() {
    let days = ["2026-06-12", "2026-06-15", "2026-06-29"];
    let weekends = ["2026-06-13", "2026-06-14", "2026-06-20", "2026-06-21", "2026-06-27"];
    due("2026-06-10", &weekends, days);
    for holiday in weekends {
        due("2026-06-10", &[holiday], days);
    }
}

/// An empty list, and so many minutes that a narrower number would take them for others.
#[test]
fn far_minutes() {
    let election = date("2026-03-31");
    let [polling, first, second, last] =
        ["2026-03-31", "2026-04-02", "2026-04-03", "2026-04-16"].map(day);
    let inside = [(polling, 9, 1), (first, 11, 2), (second, 11, 3), (last, 23, 4)];
    for (day, hour, window) in inside {
        let minute = minute(day, hour);
        assert_eq!(window_at(election, &[], minute), Ok(window));
        for bit in 25..64 {
            assert_eq!(window_at(election, &[], minute + (1 << bit)), Ok(0), "{minute}, {bit}");
        }
    }
}

/// An election of 2026-03-31, minute by minute, beside the hours that each day has.
fn check_minutes(holidays: &[&str], open: &[(usize, [usize; 2], u32)]) {
    let holidays = list(holidays);
    let (start, end) = (open[0].0 - 2, open.last().unwrap().0 + 3);
    let mut due = vec![0; 1440 * (end - start)];
    for &(day, hours, window) in open {
        let [from, to] = hours.map(|hour| 1440 * (day - start) + 60 * hour);
        due[from..to].fill(window);
    }
    for (minute, window) in (minute(start, 0)..).zip(due) {
        let found = window_at(date("2026-03-31"), &holidays, minute);
        assert_eq!(found, Ok(window), "{minute}");
    }
}

#[test]
fn every_minute() {
    let mut open = vec![
        (day("2026-03-31"), [8, 20], 1),
        (day("2026-04-02"), [10, 12], 2),
        (day("2026-04-03"), [10, 12], 3),
        (day("2026-04-03"), [12, 24], 4),
    ];
    open.extend((day("2026-04-04")..=day("2026-04-21")).map(|day| (day, [0, 24], 4)));
    check_minutes(&["2026-04-17", "2026-04-20"], &open);
    open.pop();
    check_minutes(&["2026-04-17"], &open);
    open.truncate(open.len() - 3);
    check_minutes(&[], &open);
}
