//! Rule 22, and lists that stand though they look odd.

use std::collections::BTreeSet;

use super::{check, date, day, eight, Listed};
use crate::subject::{calendar, window_at};
use paddockyear_tests::days::{every_day, number, numbers, public_holidays, DAYS};
use paddockyear_tests::random::Random;
use paddockyear_tests::reference::calendar::Date;

/// Both entries refuse, whatever the minute.
fn refused(election: Date, holidays: &[u32]) {
    let call = (election, &holidays[..holidays.len().min(20)], holidays.len());
    assert_eq!(calendar(election, holidays), Err(22), "{call:?}");
    for minute in [0, 13_804_320, u64::MAX] {
        assert_eq!(window_at(election, holidays, minute), Err(22), "{call:?}");
    }
}

/// Whether a list stands: days that exist, each after the one before it.
fn stands(holidays: &[u32], known: &BTreeSet<u32>) -> bool {
    holidays.iter().all(|holiday| known.contains(holiday))
        && holidays.windows(2).all(|pair| pair[0] < pair[1])
}

/// The numbers of all days that exist.
fn known() -> BTreeSet<u32> {
    every_day().iter().map(|&date| number(date)).collect()
}

/// Days that do not exist, of every kind.
fn no_days() -> Vec<Date> {
    let mut dates = Vec::new();
    for year in [1999, 2200, 0, 1, 99, 199, 1900, 2400, 9999, u32::MAX - 1, u32::MAX] {
        dates.extend([(1, 1), (2, 28), (3, 31), (12, 31)].map(|(m, d)| Date::new(year, m, d)));
    }
    for month in [0, 13, 14, 15, 16, 99, 100, 103, 255, 259, 65_539, u32::MAX] {
        dates.extend([1, 15, 31].map(|day| Date::new(2026, month, day)));
    }
    for month in 1..=12 {
        let days = [0, 32, 33, 39, 63, 64, 99, 100, 131, 256, 257, 287, 65_537, u32::MAX];
        dates.extend(days.map(|day| Date::new(2026, month, day)));
    }
    dates.extend([4, 6, 9, 11].map(|month| Date::new(2026, month, 31)));
    for year in [2000, 2001, 2002, 2003, 2004, 2026, 2099, 2100, 2101, 2104, 2199] {
        dates.extend([30, 31].map(|day| Date::new(year, 2, day)));
    }
    dates.extend([2001, 2002, 2003, 2099, 2100, 2101, 2199].map(|year| Date::new(year, 2, 29)));
    dates
}

#[test]
fn election_on_no_day() {
    for election in no_days() {
        refused(election, &[]);
        refused(election, &numbers(&[day("2026-04-17"), day("2026-04-20")]));
    }
}

/// Numbers that, put together or cut, would be those of a day: 2026-03-31 most often.
#[test]
fn election_on_what_looks_like_a_day() {
    for (year, month, day) in [
        (2025, 103, 31),
        (2026, 2, 131),
        (2026, 0, 331),
        (0, 202_603, 31),
        (0, 0, 20_260_331),
        (2025, 15, 31),
        (2026, 4, 0),
        (2027, 0, 0),
        (2026 + (1 << 28), 3, 31),
        (2026 + (1 << 31), 3, 31),
        (2026, 3 + (1 << 30), 31),
        (2026, 3 + (1 << 31), 31),
        (2026, 3, 31 + (1 << 31)),
        (2026, u32::MAX, 131),
        (2026 + (1 << 16), 3, 31),
        (2026, 3 + (1 << 8), 31),
        (2026, 3, 31 + (1 << 8)),
        (20_260_331, 0, 0),
        (26, 3, 31),
    ] {
        refused(Date::new(year, month, day), &[]);
    }
}

/// Every year, month and day about those that exist.
#[test]
fn every_election_day() {
    let known: BTreeSet<Date> = every_day().iter().copied().collect();
    let mut accepted = 0;
    for year in 1995..=2205 {
        for (month, day) in (0..=16).flat_map(|month| (0..=35).map(move |day| (month, day))) {
            let date = Date::new(year, month, day);
            let answer = calendar(date, &[]).map(|_| true);
            let due = if known.contains(&date) { Ok(true) } else { Err(22) };
            assert_eq!(answer, due, "{date:?}");
            accepted += usize::from(answer.is_ok());
        }
    }
    assert_eq!(accepted, DAYS);
}

/// Every number about those that are holidays, and some of all sizes, as the only one.
#[test]
fn every_holiday() {
    let (known, random) = (known(), &mut Random::new(410));
    let (election, mut accepted) = (date("2026-03-31"), 0);
    let far = (0..20_000).map(|round| random.word() as u32 >> (round % 32)).collect::<Vec<u32>>();
    for holiday in (19_980_000..22_020_000).chain(far).chain([u32::MAX]) {
        let answer = calendar(election, &[holiday]).map(|_| true);
        let due = if known.contains(&holiday) { Ok(true) } else { Err(22) };
        assert_eq!(answer, due, "{holiday}");
        accepted += usize::from(answer.is_ok() && (19_980_000..22_020_000).contains(&holiday));
    }
    assert!((DAYS..DAYS + 100).contains(&accepted));
}

/// The numbers of days that do not exist, as far as a holiday can have them.
fn no_holidays() -> Vec<u32> {
    let fits = |date: &Date| date.year < 10_000 && date.month < 100 && date.day < 100;
    let dates = no_days().into_iter().filter(fits);
    let known = known();
    let numbers = dates.map(|date| date.year * 10_000 + date.month * 100 + date.day);
    let numbers = numbers.chain([0, 1, 331, 260_331, 20_260_332, 203_603_310, u32::MAX]);
    numbers.filter(|number| !known.contains(number)).collect()
}

/// First, in the middle and last in a list that is rising with it.
#[test]
fn holiday_on_no_day() {
    let election = date("2026-03-31");
    let all = numbers(&public_holidays());
    for fault in no_holidays() {
        refused(election, &[fault]);
        let place = all.partition_point(|&holiday| holiday < fault);
        let (before, behind) = (&all[..place], &all[place..]);
        let (near, far) = (&before[place.saturating_sub(3)..], &behind[..behind.len().min(3)]);
        for lists in [[near, &[fault], far], [&[], &[fault], far], [near, &[fault], &[]]] {
            refused(election, &lists.concat());
        }
        refused(election, &[before, &[fault], behind].concat());
        refused(election, &[near, &[fault, fault], far].concat());
    }
}

/// At the first, at any and at the last place of lists of any length.
#[test]
fn holidays_that_do_not_rise() {
    let random = &mut Random::new(411);
    let all = numbers(&public_holidays());
    let election = date("2026-03-31");
    for length in [2, 3, 4, 5, 8, 20] {
        let start = random.index(all.len() - length);
        let list = &all[start..start + length];
        assert!(calendar(election, list).is_ok());
        for place in 1..length {
            let (before, behind) = list.split_at(place);
            refused(election, &[before, &[list[place - 1]], behind].concat());
            refused(election, &[before, &[list[0]], behind].concat());
            refused(election, &[before, &[behind[0] - 10_000], &behind[1..]].concat());
            let mut swapped = list.to_vec();
            swapped.swap(place - 1, place);
            refused(election, &swapped);
        }
    }
}

/// The first and the last two of a list of all days, and two in its middle.
#[test]
fn faults_in_a_list_of_every_day() {
    let all = numbers(&(0..DAYS).collect::<Vec<_>>());
    for place in [1, DAYS / 2, DAYS - 1] {
        let mut list = all.clone();
        list[place] = list[place - 1];
        refused(date("2026-03-31"), &list);
        list[place] = all[place];
        list.swap(place - 1, place);
        refused(date("2026-03-31"), &list);
        list.swap(place - 1, place);
        assert!(calendar(date("2026-03-31"), &list).is_ok());
    }
    for fault in [19_991_231, 22_000_101] {
        let mut list = [&[19_991_231][..], &all, &[22_000_101]].concat();
        list.retain(|&holiday| holiday == fault || all.binary_search(&holiday).is_ok());
        refused(date("2026-03-31"), &list);
    }
}

/// Rising in a falling part of the number: day or month alone, or both without the year.
#[test]
fn holidays_that_rise_in_part() {
    for (first, second) in [
        (20_260_410, 20_260_317),
        (20_260_401, 20_250_502),
        (20_261_231, 20_260_101),
        (20_270_101, 20_261_231),
        (20_260_228, 20_250_301),
        (21_000_101, 20_991_231),
        (21_991_231, 20_000_101),
    ] {
        refused(date("2026-03-31"), &[first, second]);
        assert!(calendar(date("2026-03-31"), &[second, first]).is_ok());
    }
}

/// Rising as numbers, but of no days: 30 February is not the day before 2 March.
#[test]
fn holidays_that_only_look_rising() {
    for (first, second) in [
        (20_260_228, 20_260_229),
        (20_260_229, 20_260_301),
        (20_260_230, 20_260_302),
        (20_260_331, 20_260_332),
        (20_260_431, 20_260_501),
        (20_261_231, 20_261_301),
        (20_261_331, 20_270_131),
        (20_270_001, 20_270_101),
        (20_270_100, 20_270_101),
        (21_000_228, 21_000_229),
        (21_000_229, 21_000_301),
        (19_991_231, 20_000_101),
        (21_991_231, 22_000_101),
    ] {
        refused(date("2026-03-31"), &[first, second]);
        refused(date("2026-03-31"), &[20_000_102, first, second, 21_991_230]);
    }
}

/// Any two faults: the election's, a holiday of no day, two that do not rise.
#[test]
fn pairs_of_faults() {
    let (random, holidays) = (&mut Random::new(412), no_holidays());
    for election in no_days() {
        let [fault, other] = [random.pick(&holidays), random.pick(&holidays)];
        refused(election, &[fault]);
        refused(election, &[20_260_417, 20_260_417]);
        refused(election, &[20_260_420, 20_260_417]);
        refused(date("2026-03-31"), &[fault, other]);
        refused(date("2026-03-31"), &[20_260_417, fault, 20_260_417]);
        refused(date("2026-03-31"), &[20_260_420, 20_260_417, fault]);
        refused(date("2026-03-31"), &[fault, 20_260_420, 20_260_417]);
    }
}

/// A rising list about an election, with up to two changes of any kind.
fn noisy(random: &mut Random, election: usize) -> Vec<u32> {
    let near = election.saturating_sub(5)..(election + 40).min(DAYS);
    let days: Vec<usize> = near.filter(|_| random.below(4) == 0).collect();
    let mut list = numbers(&days);
    for _ in 0..random.below(3) {
        if list.is_empty() {
            break;
        }
        let (place, other) = (random.index(list.len()), random.index(list.len()));
        match random.below(7) {
            0 => list.swap(place, other),
            1 => list[place] = list[other],
            2 => list[place] ^= 1 << random.below(32),
            3 => list[place] = list[place] / 100 * 100 + random.number(40),
            4 => list[place] = list[place] / 10_000 * 10_000 + 100 * random.number(16) + 1,
            5 => list.insert(place, random.word() as u32),
            _ => drop(list.remove(place)),
        }
    }
    list
}

/// Lists that stand are followed, all others refused.
#[test]
fn noise() {
    let (random, known) = (&mut Random::new(413), known());
    let (mut standing, mut fallen) = (0, 0);
    for _ in 0..40_000 {
        let election = random.index(DAYS);
        let list = noisy(random, election);
        if !stands(&list, &known) {
            refused(every_day()[election], &list);
            fallen += 1;
            continue;
        }
        let place = |holiday: &u32| day_of(*holiday);
        let holidays = list.iter().map(place).filter(|&day| day >= election).collect();
        let listed = Listed::of_span(election..election + 120, holidays);
        check(election, &list, eight(listed.days(election)));
        standing += 1;
    }
    assert!(standing > 10_000 && fallen > 10_000, "{standing}, {fallen}");
}

fn day_of(holiday: u32) -> usize {
    let (year, month, day) = (holiday / 10_000, holiday / 100 % 100, holiday % 100);
    paddockyear_tests::days::day(year, month, day)
}
