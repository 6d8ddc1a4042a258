//! What a judge answers, plainly and as drawn: the number and the place of the first fault.

mod boundaries;
mod copies;
mod copies_of_many_ballots;
mod damaged;
mod forms;
mod honest;
mod many_ballots;
mod places;

use crate::subject::judge;
use paddockyear_tests::reference::judge::Judging;

/// The number alone, 0 for an accepted record.
fn verdict(record: &[u8], judging: Judging) -> u8 {
    judge(record, judging).map_or_else(|fault| fault.number, |_| 0)
}
