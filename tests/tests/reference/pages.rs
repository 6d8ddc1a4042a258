//! Pages of `calendar` as the paper and a hand have them.

use paddockyear_tests::reference::page::calendar_page;

fn check(arguments: &[&str], lines: [&str; 4]) {
    assert_eq!(calendar_page(arguments), Some(lines.map(|line| format!("{line}\n")).concat()));
}

#[test]
fn windows() {
    let polling = "POLLING\tTue 2026-03-31 08:00\tTue 2026-03-31 20:00";
    let first = "FIRST DICE\tThu 2026-04-02 10:00\tThu 2026-04-02 12:00";
    let second = "SECOND DICE\tFri 2026-04-03 10:00\tFri 2026-04-03 12:00";
    let objections = "OBJECTIONS\tFri 2026-04-03 12:00\tTue 2026-04-21 24:00";
    let arguments = ["2026-03-31", "2026-04-17", "2026-04-20"];
    check(&arguments, [polling, first, second, objections]);
    let objections = "OBJECTIONS\tFri 2026-04-03 12:00\tMon 2026-04-20 24:00";
    check(&arguments[..2], [polling, first, second, objections]);
}

/// In the last weeks of a year, and past the last of all.
#[test]
fn windows_at_the_end_of_a_year() {
    let polling = "POLLING\tSun 2028-12-10 08:00\tSun 2028-12-10 20:00";
    let first = "FIRST DICE\tThu 2028-12-14 10:00\tThu 2028-12-14 12:00";
    let second = "SECOND DICE\tFri 2028-12-15 10:00\tFri 2028-12-15 12:00";
    let objections = "OBJECTIONS\tFri 2028-12-15 12:00\tFri 2028-12-29 24:00";
    let holidays = ["2028-12-12", "2028-12-13"];
    check(&["2028-12-10", holidays[0], holidays[1]], [polling, first, second, objections]);
    let polling = "POLLING\tTue 2199-12-31 08:00\tTue 2199-12-31 20:00";
    let first = "FIRST DICE\tThu 2200-01-02 10:00\tThu 2200-01-02 12:00";
    let second = "SECOND DICE\tFri 2200-01-03 10:00\tFri 2200-01-03 12:00";
    let objections = "OBJECTIONS\tFri 2200-01-03 12:00\tFri 2200-01-17 24:00";
    check(&["2199-12-31"], [polling, first, second, objections]);
}

#[test]
fn refusals() {
    let refused = Some("REFUSED 22\n".to_string());
    assert_eq!(calendar_page(&["2026-02-29"]), refused);
    assert_eq!(calendar_page(&["0000-00-00", "9999-99-99"]), refused);
    assert_eq!(calendar_page(&["2026-03-31", "2026-04-17", "2026-04-17"]), refused);
}

/// What has not the form of a date, also behind one that would be refused.
#[test]
fn no_page() {
    assert_eq!(calendar_page(&[]), None);
    for word in ["", "2026-3-31", "2026-03-31 ", "2026/03/31", "+026-03-31", "2026-03-3x"] {
        assert_eq!(calendar_page(&[word]), None, "{word}");
        assert_eq!(calendar_page(&["2026-02-29", word]), None, "{word}");
    }
}
