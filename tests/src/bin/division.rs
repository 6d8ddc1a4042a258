//! That nothing that the judge reaches, and nothing else in the crates, divides by M. Run from the
//! root; the last line is the sum.

use paddockyear_tests::crates::all;
use paddockyear_tests::division::{check, LISTED};
use std::process::ExitCode;

fn main() -> ExitCode {
    let report = check(&all("."), &LISTED);
    report.lines().iter().for_each(|line| println!("{line}"));
    if report.faults.is_empty() {
        ExitCode::SUCCESS
    } else {
        ExitCode::FAILURE
    }
}
