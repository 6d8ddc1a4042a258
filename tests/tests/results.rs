//! The product's receipt check, receipt lookup, announced votes and tally beside the reference's.

#[path = "suites/lookup.rs"]
mod lookup;
#[path = "suites/results.rs"]
mod suite;

use paddockyear_tests::subjects::product as subject;
