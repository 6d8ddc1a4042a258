//! The pages of the programs beside the reference's: `PADDOCKYEAR_PROGRAM` names `scrutineer`,
//! `PADDOCKYEAR_TELLER` names `teller` and `PADDOCKYEAR_CALENDAR` names `calendar`, which are else
//! looked for where `rt ci` and `rt run` leave them, in `../crates/NAME/out`.

use std::ffi::OsStr;
use std::fs;
use std::io::Write;
use std::os::unix::ffi::OsStrExt;
use std::path::{Path, PathBuf};
use std::process::{Command, Output, Stdio};

use paddockyear_tests::boards::copies::*;
use paddockyear_tests::boards::damage::{damaged, Forgery};
use paddockyear_tests::boards::samples::{promised, stored, with_votes, RANKED};
use paddockyear_tests::boards::{first_command, form, honest, inputs, parameters, BOTH, FORMS};
use paddockyear_tests::days::{every_day, public_holidays, runs, some_days, weekends, DAYS};
use paddockyear_tests::random::Random;
use paddockyear_tests::reference::calendar::Date;
use paddockyear_tests::reference::judge::Judging;
use paddockyear_tests::reference::page::{
    calendar_page, candidates_of, page, teller_page, LONGEST,
};
use paddockyear_tests::reference::terms::{Form, Parameters};
use paddockyear_tests::reference::writer::Secrets;

fn program(variable: &str, name: &str) -> PathBuf {
    let crates = Path::new(env!("CARGO_MANIFEST_DIR")).join("../crates");
    let built = || crates.join(name).join("out").join(name);
    std::env::var_os(variable).map_or_else(built, PathBuf::from)
}

fn scrutineer() -> PathBuf {
    program("PADDOCKYEAR_PROGRAM", "scrutineer")
}

fn teller() -> PathBuf {
    program("PADDOCKYEAR_TELLER", "teller")
}

fn calendar() -> PathBuf {
    program("PADDOCKYEAR_CALENDAR", "calendar")
}

/// What a program writes for this input, which it may stop reading where it is too long.
fn output(program: PathBuf, arguments: &[&OsStr], input: &[u8]) -> Output {
    let mut child = Command::new(program)
        .args(arguments)
        .stdin(Stdio::piped())
        .stdout(Stdio::piped())
        .stderr(Stdio::piped())
        .spawn()
        .expect("the program runs");
    let mut stdin = child.stdin.take().expect("a pipe");
    let input = input.to_vec();
    let writer = std::thread::spawn(move || {
        let _ = stdin.write_all(&input);
    });
    let output = child.wait_with_output().expect("the program ends");
    writer.join().expect("the writer ends");
    output
}

/// The page that a program writes, with nothing beside it.
fn page_of(output: Output) -> String {
    assert!(output.status.success());
    assert_eq!(output.stderr, b"");
    String::from_utf8(output.stdout).expect("a page is plain text")
}

fn printed(input: &[u8]) -> String {
    page_of(output(scrutineer(), &[], input))
}

fn check(input: &[u8]) {
    assert_eq!(printed(input), page(input));
}

/// Names and bytes of the sample boards.
fn samples() -> Vec<(String, Vec<u8>)> {
    let found = stored().expect("the samples can be read");
    assert!(found.len() >= 12);
    found.into_iter().map(|(name, bytes)| (name.replace(".board", ""), bytes)).collect()
}

#[test]
fn sample_boards() {
    for (name, record) in samples() {
        let text = printed(&record);
        assert_eq!(text, page(&record), "{name}");
        match promised(&name) {
            Some(rule) => assert_eq!(text, format!("REFUSED {rule}\n")),
            None => assert!(text.starts_with("ACCEPTED\n"), "{name}"),
        }
    }
}

#[test]
fn honest_and_damaged_boards() {
    let mut random = Random::new(61);
    for _ in 0..40 {
        let p = parameters(&mut random, 12, 2);
        check(&honest(&mut random, p, BOTH).record());
        check(&damaged(&mut random, 6, 2, Judging::Drawn).0);
    }
}

#[test]
fn length_of_the_input() {
    check(&[]);
    for length in [1, LONGEST - 1, LONGEST, LONGEST + 1, 3 * LONGEST] {
        check(&vec![1; length]);
    }
    assert_eq!(printed(&vec![1; LONGEST + 1]), "TOO LONG\n");
}

/// Records that stop behind n: both pages have 1 where it is within its limit, else 3.
#[test]
fn limit_of_n() {
    for (n, number) in [(0, 3), (1, 1), (1024, 1), (1025, 1), (4096, 1), (4097, 3), (65_535, 3)] {
        for form in FORMS {
            let record = first_command(form, n);
            let due = format!("REFUSED {number}\n");
            assert_eq!(printed(&record), due, "n = {n}");
            assert_eq!(told("2", &record), due, "n = {n}");
        }
    }
}

/// The line below `ACCEPTED`, of both programs, with the number in decimal.
#[test]
fn numbered_elections() {
    let random = &mut Random::new(315);
    for (election, line) in [
        (0, "ELECTION 0\n"),
        (1, "ELECTION 1\n"),
        (9, "ELECTION 9\n"),
        (10, "ELECTION 10\n"),
        (255, "ELECTION 255\n"),
        (256, "ELECTION 256\n"),
        (65_536, "ELECTION 65536\n"),
        (0x0C0C_0C0C, "ELECTION 202116108\n"),
        (1_000_000_000, "ELECTION 1000000000\n"),
        (1 << 31, "ELECTION 2147483648\n"),
        (u32::MAX, "ELECTION 4294967295\n"),
    ] {
        let record = with_votes(random, Form::Numbered(election), 9, &[5, 2, 5]).record();
        assert_eq!(printed(&record), format!("ACCEPTED\n{line}2 1\n5 2\n"));
        let rounds = "ROUND\t#1\t#2\tLEAVES\n1\t0\t1\t-\nWINNER\t#2\nBLANK\t0\nSPOILED\t2\n";
        assert_eq!(told("2", &record), format!("ACCEPTED\n{line}{rounds}"));
        for candidates in ["0", "10"] {
            assert_eq!(told(candidates, &record), "REFUSED 20\n");
        }
        let end = record.len() - 1;
        for (input, page) in [
            (&record[..end], "REFUSED 1\n"),
            (&record[..11], "REFUSED 1\n"),
            (&[&record[..], &[0]].concat(), "REFUSED 17\n"),
            (&[&[0x0D], &record[1..]].concat(), "REFUSED 2\n"),
            (&[&record[..], &vec![0; LONGEST]].concat(), "TOO LONG\n"),
        ] {
            assert_eq!(printed(input), page);
            assert_eq!(told("2", input), page);
        }
    }
}

/// The longest input that is read, as a record with 0C: the length of a page's line is not the
/// input's.
#[test]
fn longest_numbered_input() {
    for length in [LONGEST - 1, LONGEST, LONGEST + 1] {
        let due = if length > LONGEST { "TOO LONG\n" } else { "REFUSED 2\n" };
        assert_eq!(printed(&vec![0x0C; length]), due);
        assert_eq!(told("3", &vec![0x0C; length]), due);
    }
}

/// Both pages of boards with a copied ballot, in both forms; the teller's comes before 20. Equal
/// commitments inside a ballot stand.
#[test]
fn copied_ballots() {
    let random = &mut Random::new(316);
    for (form, (from, slot)) in FORMS.into_iter().cycle().zip(pairs_of_places()) {
        let honest = Copied::none(inputs(random, Parameters { form, modulus: 100, n: 4, m: 1 }));
        let copied = honest.and((random.index(3), from), (3, slot));
        let record = copied.posted(random, Judging::Drawn);
        assert_eq!(printed(&record), "REFUSED 21\n");
        for candidates in ["0", "2", "10"] {
            assert_eq!(told(candidates, &record), "REFUSED 21\n");
        }
    }
    for form in [Form::Unnumbered, Form::Numbered(5)] {
        let inside = inputs(random, Parameters { form, modulus: 100, n: 2, m: 1 });
        let inside = Copied::none(inside).and_inside(1, 0).openings();
        let record = record_of(random, &inside, Judging::Drawn);
        assert!(printed(&record).starts_with("ACCEPTED\n"));
        check(&record);
    }
}

/// Boards of which the ballots and lists are those of another election, or of the other form.
#[test]
fn commitments_of_another_election() {
    let random = &mut Random::new(317);
    let forms = [Form::Unnumbered, Form::Numbered(5), Form::Numbered(6)];
    for (form, other) in forms.into_iter().flat_map(|form| forms.map(|other| (form, other))) {
        let inputs = inputs(random, Parameters { form, modulus: 100, n: 3, m: 1 });
        let secrets = Secrets { scheme: other.scheme(), ..Secrets::new(&inputs) };
        let record = Forgery::new(secrets, random.mask(1)).record(random, Judging::Drawn);
        check(&record);
        assert_eq!(printed(&record) == "REFUSED 13\n", form != other, "{other:?} behind {form:?}");
    }
}

/// What can't be read, as a folder, gets a line on standard error and no verdict.
#[test]
fn unreadable_input() {
    let folder = fs::File::open(env!("CARGO_MANIFEST_DIR")).expect("a folder can be opened");
    let output = Command::new(scrutineer()).stdin(folder).output().expect("the program runs");
    assert_eq!(output.stdout, b"");
    assert_eq!(output.stderr, b"standard input cannot be read\n");
}

/// The page of `teller`, which is the reference's.
fn told(candidates: &str, record: &[u8]) -> String {
    let number = candidates_of(&[candidates]).expect("a number");
    let text = page_of(output(teller(), &[OsStr::new(candidates)], record));
    assert_eq!(text, teller_page(number, record), "{candidates} candidates");
    text
}

const EVERY_NUMBER: [&str; 9] = ["1", "2", "3", "4", "5", "6", "7", "8", "9"];

#[test]
fn teller_on_sample_boards() {
    for (name, record) in samples() {
        for candidates in EVERY_NUMBER {
            let text = told(candidates, &record);
            match promised(&name) {
                Some(rule) => assert_eq!(text, format!("REFUSED {rule}\n")),
                None if record[0] == 0x0C => assert!(text.starts_with("ACCEPTED\nELECTION ")),
                None => assert!(text.starts_with("ACCEPTED\nROUND\t#1\t"), "{name}"),
            }
        }
    }
}

/// Votes out of a few rankings of any number of candidates, blank and spoiled ones.
fn ranked_votes(random: &mut Random) -> Vec<u32> {
    let pool: Vec<u32> = (0..1 + random.index(8)).map(|_| ranked_vote(random)).collect();
    (0..1 + random.index(40)).map(|_| random.pick(&pool)).collect()
}

fn ranked_vote(random: &mut Random) -> u32 {
    let places = 1 + random.index(9);
    let order = random.permutation(places);
    let length = random.pick(&[0, 1, 1, 2, 3, places]).min(places);
    let vote = order[..length].iter().fold(0, |vote, &place| 10 * vote + 1 + u32::from(place));
    match random.below(10) {
        0 => vote / 10 * 10,
        1 => random.number(1_000_000_000),
        _ => vote,
    }
}

#[test]
fn teller_on_ranked_boards() {
    let random = &mut Random::new(310);
    let (mut rounds, mut without_winner) = ([0; 10], 0);
    for _ in 0..40 {
        let votes = ranked_votes(random);
        let form = form(random);
        let record = with_votes(random, form, 1_000_000_000, &votes).record();
        let others = if form == Form::Unnumbered { 5 } else { 6 };
        for candidates in EVERY_NUMBER {
            let text = told(candidates, &record);
            rounds[text.lines().count() - others] += 1;
            without_winner += usize::from(text.contains("WINNER\tNONE\n"));
        }
    }
    assert!(rounds[1..].iter().all(|&count| count > 0), "{rounds:?}");
    assert!(without_winner > 0);
}

/// One candidate, and counts of two digits.
#[test]
fn teller_on_a_page_worked_out_by_hand() {
    let votes = [vec![1; 12], vec![21; 20], vec![3; 2], vec![0; 11], vec![44; 10]].concat();
    let record =
        with_votes(&mut Random::new(311), Form::Unnumbered, 1_000_000_000, &votes).record();
    let due = "ACCEPTED\nROUND\t#1\tLEAVES\n1\t12\t-\nWINNER\t#1\nBLANK\t11\nSPOILED\t32\n";
    assert_eq!(told("1", &record), due);
    let due = "ACCEPTED\nROUND\t#1\t#2\t#3\tLEAVES\n1\t12\t20\t2\t-\n\
               WINNER\t#2\nBLANK\t11\nSPOILED\t10\n";
    assert_eq!(told("3", &record), due);
}

/// A verdict on the record comes before 20.
#[test]
fn teller_refuses_numbers_of_candidates() {
    let record =
        with_votes(&mut Random::new(312), Form::Unnumbered, 1_000_000_000, &RANKED).record();
    let beyond_words = ["4294967299", "18446744073709551619", "99999999999999999999"];
    let beyond = ["340282366920938463463374607431768211459", &"9".repeat(1_000)];
    let small = ["0", "00", "10", "11", "19", "100", "255", "256", "259", "65539"];
    for candidates in small.into_iter().chain(beyond_words).chain(beyond) {
        assert_eq!(told(candidates, &record), "REFUSED 20\n", "{candidates}");
        assert_eq!(told(candidates, &record[1..]), "REFUSED 2\n");
        assert_eq!(told(candidates, &vec![1; LONGEST + 1]), "TOO LONG\n");
    }
    for candidates in ["03", "000000000000000000000000000003", &format!("{}3", "0".repeat(500))] {
        assert_eq!(told(candidates, &record), teller_page(3, &record));
    }
}

#[test]
fn teller_on_damaged_boards() {
    let random = &mut Random::new(313);
    for _ in 0..40 {
        let candidates = random.pick(&["0", "1", "4", "9", "10"]);
        let (record, fault) = damaged(random, 6, 2, Judging::Drawn);
        assert_eq!(told(candidates, &record), format!("REFUSED {}\n", fault.number));
    }
}

#[test]
fn teller_and_the_length_of_the_input() {
    for candidates in ["0", "3"] {
        assert_eq!(told(candidates, &[]), "REFUSED 1\n");
        for length in [1, LONGEST - 1, LONGEST, LONGEST + 1, 3 * LONGEST] {
            told(candidates, &vec![1; length]);
        }
        assert_eq!(told(candidates, &vec![1; LONGEST]), "REFUSED 2\n");
        assert_eq!(told(candidates, &vec![1; LONGEST + 1]), "TOO LONG\n");
    }
}

/// Nothing but how it is used, whatever the record.
#[test]
fn teller_and_bad_arguments() {
    let record =
        with_votes(&mut Random::new(314), Form::Unnumbered, 1_000_000_000, &RANKED).record();
    let single =
        ["", " ", "+3", "-3", "3 ", " 3", "3\n", "3.0", "0x3", "3a", "a3", "/3", "3:", "\u{663}"];
    let mut wrong: Vec<Vec<&OsStr>> = single.iter().map(|word| vec![OsStr::new(word)]).collect();
    wrong.extend(
        [&[][..], &["3", "4"], &["3", "3", "3"], &["3", ""], &["", "3"]]
            .map(|words| words.iter().map(OsStr::new).collect::<Vec<_>>()),
    );
    wrong.push(vec![OsStr::from_bytes(b"3\xFF")]);
    for arguments in wrong {
        for input in [&record[..], &record[1..], &[1; LONGEST + 1], &[]] {
            let output = output(teller(), &arguments, input);
            assert_eq!(output.stdout, b"", "{arguments:?}");
            assert_eq!(output.stderr, b"usage: teller CANDIDATES < record\n", "{arguments:?}");
        }
    }
}

/// What can't be read, as a folder, gets no verdict.
#[test]
fn teller_on_unreadable_input() {
    let folder = fs::File::open(env!("CARGO_MANIFEST_DIR")).expect("a folder can be opened");
    let output = Command::new(teller()).arg("3").stdin(folder).output().expect("the program runs");
    assert_eq!(output.stdout, b"");
    assert_eq!(output.stderr, b"standard input cannot be read\n");
}

/// The page of `calendar`, which is the reference's.
fn dated(arguments: &[&str]) -> String {
    let words: Vec<&OsStr> = arguments.iter().map(OsStr::new).collect();
    let text = page_of(output(calendar(), &words, &[]));
    let some = &arguments[..arguments.len().min(20)];
    assert_eq!(Some(&text), calendar_page(arguments).as_ref(), "{some:?}");
    text
}

fn words(days: &[usize]) -> Vec<String> {
    let word = |Date { year, month, day }| format!("{year}-{month:02}-{day:02}");
    days.iter().map(|&day| word(every_day()[day])).collect()
}

/// An election with these holidays, by their places among all days.
fn dated_days(election: usize, holidays: &[usize]) -> String {
    let words = words(&[&[election], holidays].concat());
    dated(&words.iter().map(String::as_str).collect::<Vec<_>>())
}

#[test]
fn calendars_worked_out_by_hand() {
    let polling = "POLLING\tTue 2026-03-31 08:00\tTue 2026-03-31 20:00\n";
    let first = "FIRST DICE\tThu 2026-04-02 10:00\tThu 2026-04-02 12:00\n";
    let second = "SECOND DICE\tFri 2026-04-03 10:00\tFri 2026-04-03 12:00\n";
    let objections = "OBJECTIONS\tFri 2026-04-03 12:00\tTue 2026-04-21 24:00\n";
    let due = [polling, first, second, objections].concat();
    assert_eq!(dated(&["2026-03-31", "2026-04-17", "2026-04-20"]), due);
    let objections = "OBJECTIONS\tFri 2026-04-03 12:00\tFri 2026-04-17 24:00\n";
    assert_eq!(dated(&["2026-03-31"]), [polling, first, second, objections].concat());
    let second = "SECOND DICE\tTue 2026-04-07 10:00\tTue 2026-04-07 12:00\n";
    let objections = "OBJECTIONS\tTue 2026-04-07 12:00\tTue 2026-04-21 24:00\n";
    let due = [polling, first, second, objections].concat();
    assert_eq!(dated(&["2026-03-31", "2026-04-03", "2026-04-06"]), due);
}

/// Of 2000, and of 2199 with windows in 2200; an election on each weekday.
#[test]
fn calendars_of_the_first_and_last_days() {
    let due = "POLLING\tTue 2199-12-31 08:00\tTue 2199-12-31 20:00\n\
               FIRST DICE\tThu 2200-01-02 10:00\tThu 2200-01-02 12:00\n\
               SECOND DICE\tFri 2200-01-03 10:00\tFri 2200-01-03 12:00\n\
               OBJECTIONS\tFri 2200-01-03 12:00\tFri 2200-01-17 24:00\n";
    assert_eq!(dated(&["2199-12-31"]), due);
    assert_eq!(dated(&["2199-12-31", "2199-12-31"]), due);
    let due = "POLLING\tSat 2000-01-01 08:00\tSat 2000-01-01 20:00\n\
               FIRST DICE\tTue 2000-01-04 10:00\tTue 2000-01-04 12:00\n\
               SECOND DICE\tWed 2000-01-05 10:00\tWed 2000-01-05 12:00\n\
               OBJECTIONS\tWed 2000-01-05 12:00\tWed 2000-01-19 24:00\n";
    assert_eq!(dated(&["2000-01-01"]), due);
    for election in (0..30).chain(36_570..36_600).chain(DAYS - 30..DAYS) {
        dated_days(election, &[]);
    }
}

#[test]
fn calendars_with_random_holidays() {
    let random = &mut Random::new(420);
    let lists = [some_days(random, 3), runs(random, 20), public_holidays()];
    for round in 0..150 {
        let (election, list) = (random.index(DAYS), &lists[round % 3]);
        let near = election.saturating_sub(5)..election + 60;
        let holidays: Vec<usize> = list.iter().copied().filter(|day| near.contains(day)).collect();
        dated_days(election, &holidays);
    }
}

/// Some thousands, and every day there is.
#[test]
fn calendars_with_many_holidays() {
    let whole: Vec<usize> = (0..DAYS).collect();
    for holidays in [&public_holidays(), &weekends(), &whole[..5_000], &whole] {
        for election in [0, 9_586, DAYS - 1] {
            dated_days(election, holidays);
        }
    }
}

#[test]
fn refused_calendars() {
    let none = [
        "2026-02-29",
        "2100-02-29",
        "1999-12-31",
        "2200-01-01",
        "0000-00-00",
        "9999-99-99",
        "2026-00-10",
        "2026-13-10",
        "2026-04-00",
        "2026-04-31",
        "2026-12-32",
        "0026-03-31",
    ];
    for day in none {
        for arguments in [
            &[day][..],
            &[day, "2026-04-17"],
            &["2026-03-31", day],
            &["2026-03-31", day, "2199-12-31"],
            &["2026-03-31", "2000-01-01", day],
            &[day, day],
        ] {
            assert_eq!(dated(arguments), "REFUSED 22\n", "{arguments:?}");
        }
    }
    for falling in [["2026-04-17", "2026-04-17"], ["2026-04-20", "2026-04-17"]] {
        let [first, second] = falling;
        assert_eq!(dated(&["2026-03-31", first, second]), "REFUSED 22\n");
        assert_eq!(dated(&["2026-03-31", "2025-01-01", first, second]), "REFUSED 22\n");
    }
}

/// Nothing but how it is used.
fn check_usage(arguments: &[&OsStr]) {
    let output = output(calendar(), arguments, &[]);
    let line = String::from_utf8(output.stderr).expect("plain text");
    assert_eq!(output.stdout, b"", "{arguments:?}");
    assert!(line.starts_with("usage: calendar"), "{arguments:?}: {line}");
    assert!(line.ends_with('\n') && line.lines().count() == 1, "{arguments:?}: {line}");
}

/// Words that have not the form of a date, with bars between them; the first is empty.
const NO_DATES: &str =
    "| |-|--|2|2026|2026-03|2026-03-3|2026-03-311|12026-03-31|2026-3-31|2026-03-31 |\
    26-03-31|026-003-31|2026-003-1|31-03-2026|20260331|2026-0331|2026-03-31-|-2026-03-31|\
    2026/03/31|2026.03.31|2026 03 31|2026--3-31|2026-03--1|+026-03-31|2026-+3-31|2026-03-+1|\
    2026- 3-31|2026-03- 1|2026-03-1 |2026-0x-31|0x26-03-31|abcd-ef-gh|2026-MAR-1|2026-03-3\u{e9}|\
    2026-03-\u{663}|2026-03-31\n|2026-03-3\n| 2026-03-31|today|--help";

/// Those, and a date with each of its characters changed.
fn malformed() -> Vec<String> {
    let mut words: Vec<String> = NO_DATES.split('|').map(str::to_string).collect();
    for place in 0..10 {
        for character in ["/", ":", "a", " ", "-", "0"] {
            let mut word = "2026-03-31".to_string();
            word.replace_range(place..place + 1, character);
            let fits = if matches!(place, 4 | 7) { "-" } else { "0" };
            if character != fits {
                words.push(word);
            }
        }
    }
    words.push("2026-03-31".repeat(100));
    words
}

/// As the election's day, and as first and last holiday, also behind a day that would be refused.
#[test]
fn calendar_and_bad_arguments() {
    check_usage(&[]);
    let mut wrong: Vec<Vec<u8>> = malformed().into_iter().map(String::into_bytes).collect();
    assert!(wrong.len() > 80);
    wrong.extend([b"2026-03-3\xFF".to_vec(), b"\xFF026-03-31".to_vec()]);
    let [election, holiday, none] = ["2026-03-31", "2026-04-17", "2026-02-29"].map(OsStr::new);
    for word in &wrong {
        let word = OsStr::from_bytes(word);
        check_usage(&[word]);
        check_usage(&[word, holiday]);
        check_usage(&[election, word]);
        check_usage(&[election, word, holiday]);
        check_usage(&[election, holiday, word]);
        check_usage(&[none, word]);
        check_usage(&[election, none, word]);
    }
}

/// The reference takes them for malformed too.
#[test]
fn arguments_of_no_page() {
    assert_eq!(calendar_page(&[]), None);
    for word in malformed() {
        assert_eq!(calendar_page(&[&word]), None, "{word}");
        assert_eq!(calendar_page(&["2026-03-31", &word]), None, "{word}");
    }
}
