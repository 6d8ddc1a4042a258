//! Every day as election day, beside lists of holidays of all years. Holidays far from an election
//! do not count, so that only those around it are lent; some elections get the whole lists.

use std::collections::BTreeSet;

use super::{check, check_windows, eight, Listed, PAST};
use paddockyear_tests::days::*;
use paddockyear_tests::random::Random;

/// The days of polling and dice and the last of the objections, of every election.
fn check_every_day(listed: &Listed) -> Vec<[usize; 4]> {
    (0..DAYS).map(|election| listed.check(election)).collect()
}

/// The first and last days, and some between them.
fn some_elections(step: usize) -> impl Iterator<Item = usize> {
    (0..DAYS).step_by(step).chain([1, 2, 59, 60, DAYS - 2, DAYS - 1])
}

/// How often the objections ended later than on the fourteenth day.
fn moved_ends(checked: &[[usize; 4]]) -> usize {
    checked.iter().filter(|[_, _, second, last]| last - second > 14).count()
}

#[test]
fn without_holidays() {
    let checked = check_every_day(&Listed::new(Vec::new()));
    assert_eq!(moved_ends(&checked), 0);
}

#[test]
fn with_public_holidays() {
    let listed = Listed::new(public_holidays());
    let checked = check_every_day(&listed);
    assert!(moved_ends(&checked) > 1_000);
    some_elections(701).for_each(|election| listed.check_whole(election));
}

/// Weekends alone change nothing, and with other holidays nothing more.
#[test]
fn with_weekends() {
    let (none, listed) = (Listed::new(Vec::new()), Listed::new(weekends()));
    let checked = check_every_day(&listed);
    assert!((0..DAYS).all(|election| checked[election] == none.days(election)));
    some_elections(4_001).for_each(|election| listed.check_whole(election));
}

#[test]
fn with_random_holidays() {
    let listed = Listed::new(some_days(&mut Random::new(400), 9));
    assert!(moved_ends(&check_every_day(&listed)) > DAYS / 20);
    some_elections(9_001).for_each(|election| listed.check_whole(election));
}

/// Half of all days: the windows alone.
#[test]
fn with_many_random_holidays() {
    let listed = Listed::new(some_days(&mut Random::new(403), 2));
    for election in 0..DAYS {
        let days = listed.days(election);
        check_windows(election, listed.around(days), eight(days));
    }
    some_elections(9_001).for_each(|election| listed.check_whole(election));
}

/// Runs that cover weeks.
#[test]
fn with_long_runs() {
    let listed = Listed::new(runs(&mut Random::new(401), 28));
    let checked = check_every_day(&listed);
    let ends: BTreeSet<usize> = checked.iter().map(|[_, _, second, last]| last - second).collect();
    assert!(ends.len() > 20 && ends.contains(&14), "{ends:?}");
    some_elections(9_001).for_each(|election| listed.check_whole(election));
}

/// From the election's day on every day is a holiday, for 60 days; what is behind 2199 is none. The
/// windows alone.
#[test]
fn with_months_of_holidays() {
    let all = numbers(&(0..DAYS).collect::<Vec<_>>());
    let none = Listed::new(Vec::new());
    for election in 0..DAYS {
        let end = (election + 60).min(DAYS);
        let [_, first, second, last] = none.days(end - 1);
        check_windows(election, &all[election..end], eight([election, first, second, last]));
    }
}

/// 73,049 holidays: the dice are in 2200, whenever the election is.
#[test]
fn with_every_day_a_holiday() {
    let listed = Listed::new((0..DAYS).collect());
    let january = |day| DAYS + day - 1;
    for election in some_elections(30_001) {
        let days = listed.days(election);
        assert_eq!(days, [election, january(2), january(3), january(17)]);
        listed.check_whole(election);
    }
}

/// Every day but one, or but two, is a holiday: those are the only working days before 2200.
#[test]
fn with_few_working_days() {
    let random = &mut Random::new(402);
    for round in 0..5 {
        let first = random.index(DAYS);
        let working = [first, first + 1 + round, random.index(DAYS), random.index(DAYS)];
        let holidays = (0..DAYS).filter(|day| !working.contains(day)).collect();
        Listed::new(holidays).check_whole(random.index(first + 1));
    }
}

/// Of each weekday every choice of holidays among the next days, and among those about the
/// fourteenth day.
#[test]
fn every_choice_of_holidays() {
    for election in day(2100, 2, 22)..day(2100, 3, 1) {
        let [_, _, second, _] =
            Listed::of_span(election..election + PAST, Vec::new()).days(election);
        for start in [election, second + 13] {
            for choice in 0..1 << 9 {
                let chosen = (0..9).filter(|bit| choice >> bit & 1 == 1).map(|bit| start + bit);
                Listed::of_span(election..election + 2 * PAST, chosen.collect()).check(election);
            }
        }
    }
}

/// Each day alone, from before the election to behind its objections.
#[test]
fn one_holiday() {
    for election in day(2104, 2, 20)..day(2104, 3, 5) {
        for holiday in election - 20..election + PAST {
            let span = election..election + 2 * PAST;
            let listed = Listed::of_span(span, vec![holiday]);
            check(election, &listed.numbers, eight(listed.days(election)));
        }
    }
}
