//! The texts of the programs' pages.

use std::iter::once;

use super::calendar::{calendar, Date, Day, Window, MINUTES_OF_A_DAY};
use super::judge::{judge, parameters, Judging, Reader};
use super::results::counted;
use super::runoff::{Counted, End, Round, MOST_CANDIDATES};
use super::terms::{refusal, Form, NOW};

/// The longest record that the programs read.
pub const LONGEST: usize = 65_536;

/// What the program `scrutineer` writes for this input.
pub fn page(input: &[u8]) -> String {
    judged(input).map_or_else(|verdict| verdict, |(head, votes)| head + &tally_lines(&votes))
}

/// The head and the votes of an accepted record, else the line that the page is.
fn judged(input: &[u8]) -> Result<(String, Vec<u32>), String> {
    if input.len() > LONGEST {
        return Err("TOO LONG\n".to_string());
    }
    let votes = judge(input, Judging::Drawn).map_err(|fault| refused(fault.number))?;
    Ok((head(input), votes))
}

/// The lines above an accepted record's results.
fn head(record: &[u8]) -> String {
    let read = parameters(&mut Reader::new(record), NOW).expect("an accepted record has them");
    match read.form {
        Form::Unnumbered => "ACCEPTED\n".to_string(),
        Form::Numbered(election) => format!("ACCEPTED\nELECTION {election}\n"),
    }
}

fn refused(number: u8) -> String {
    format!("REFUSED {number}\n")
}

fn tally_lines(votes: &[u32]) -> String {
    counted(votes).into_iter().map(|(vote, count)| format!("{vote} {count}\n")).collect()
}

/// The number of candidates in the arguments of the program `teller`, if they are one number; the
/// largest of the type stands for whatever is larger.
pub fn candidates_of(arguments: &[&str]) -> Option<u32> {
    let [argument] = arguments else { return None };
    if argument.is_empty() {
        return None;
    }
    let mut digits = argument.chars().map(|c| c.to_digit(10));
    digits.try_fold(0u32, |number, digit| Some(number.saturating_mul(10).saturating_add(digit?)))
}

/// What the program `teller` writes for this number of candidates and this input.
pub fn teller_page(candidates: u32, input: &[u8]) -> String {
    match judged(input) {
        Err(verdict) => verdict,
        Ok(_) if !(1..=MOST_CANDIDATES).contains(&candidates) => refused(refusal::CANDIDATES),
        Ok((head, votes)) => head + &runoff_lines(&votes, candidates),
    }
}

/// A header, a line for each round, and the three lines of the outcome.
fn runoff_lines(votes: &[u32], candidates: u32) -> String {
    let counted = Counted::new(votes, candidates);
    let names: String = (1..=candidates).map(|number| format!("\t#{number}")).collect();
    let mut page = format!("ROUND{names}\tLEAVES\n");
    for (round, number) in counted.rounds.iter().zip(1..) {
        page += &round_line(number, round, candidates);
    }
    let outcome = counted.outcome();
    let winner = outcome.winner.map_or("NONE".to_string(), |number| format!("#{number}"));
    page + &format!("WINNER\t{winner}\nBLANK\t{}\nSPOILED\t{}\n", outcome.blank, outcome.spoiled)
}

fn round_line(number: usize, round: &Round, candidates: u32) -> String {
    let count = |candidate| round.counts.get(&candidate).map_or("-".to_string(), u64::to_string);
    let counts: String =
        (1..=candidates).map(|candidate| format!("\t{}", count(candidate))).collect();
    let leaves = match round.end {
        End::Leaves(candidate) => format!("#{candidate}"),
        End::Wins(_) | End::NoVoteCounts => "-".to_string(),
    };
    format!("{number}{counts}\t{leaves}\n")
}

/// What the program `calendar` writes for these arguments, if each of them has the form of a date.
pub fn calendar_page(arguments: &[&str]) -> Option<String> {
    let dates: Option<Vec<Date>> = arguments.iter().map(|argument| date_of(argument)).collect();
    let dates = dates?;
    let (&election, holidays) = dates.split_first()?;
    let holidays: Vec<u32> = holidays.iter().map(|date| date.number()).collect();
    let Ok(windows) = calendar(election, &holidays) else { return Some(refused(refusal::DAY)) };
    let lines =
        ["POLLING", "FIRST DICE", "SECOND DICE", "OBJECTIONS"].iter().zip(windows.in_order());
    let line = |(name, window): (&&str, Window)| {
        format!("{name}\t{}\t{}\n", moment(window.start), moment_before(window.end))
    };
    Some(lines.map(line).collect())
}

/// Four digits, two and two, with '-' between them.
fn date_of(argument: &str) -> Option<Date> {
    let [year, month, day] = argument.split('-').collect::<Vec<_>>().try_into().ok()?;
    let number = |digits: &str, length: usize| {
        let all = digits.len() == length && digits.bytes().all(|digit| digit.is_ascii_digit());
        all.then(|| digits.parse().expect("at most four digits"))
    };
    Some(Date::new(number(year, 4)?, number(month, 2)?, number(day, 2)?))
}

/// A minute as the clock has it.
fn moment(minute: u64) -> String {
    written(minute / MINUTES_OF_A_DAY, minute % MINUTES_OF_A_DAY)
}

/// A window's end, of which midnight is the 24:00 of the day before.
fn moment_before(end: u64) -> String {
    let day = (end - 1) / MINUTES_OF_A_DAY;
    written(day, end - day * MINUTES_OF_A_DAY)
}

fn written(day: u64, minute: u64) -> String {
    let day = once(Day::FIRST).chain(Day::FIRST.later()).nth(day as usize).expect("no end");
    let Date { year, month, day: number } = day.date;
    let (hours, minutes) = (minute / 60, minute % 60);
    format!("{:?} {year}-{month:02}-{number:02} {hours:02}:{minutes:02}", day.weekday())
}
