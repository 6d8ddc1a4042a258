//! Tests of the reference itself.

#[path = "../suites/calendar/mod.rs"]
mod calendar;
#[path = "../suites/columns.rs"]
mod columns;
mod conventions;
#[path = "../suites/election.rs"]
mod election;
#[path = "../suites/judge/mod.rs"]
mod judge;
#[path = "../suites/lookup.rs"]
mod lookup;
mod pages;
#[path = "../suites/parts/mod.rs"]
mod parts;
#[path = "../suites/results.rs"]
mod results;
#[path = "../suites/runoff.rs"]
mod runoff;
mod samples;
#[path = "../suites/stored.rs"]
mod stored;
#[path = "../suites/tablet.rs"]
mod tablet;
#[path = "../suites/throws/mod.rs"]
mod throws;

use paddockyear_tests::subjects::reference as subject;
