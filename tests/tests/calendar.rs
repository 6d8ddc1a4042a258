//! The product's election calendar beside the reference's.

#[path = "suites/calendar/mod.rs"]
mod suite;

use paddockyear_tests::subjects::product as subject;
