//! The product's judge beside the reference's: number and place.

#[path = "suites/stored.rs"]
mod stored;
#[path = "suites/judge/mod.rs"]
mod suite;

use paddockyear_tests::subjects::product as subject;
