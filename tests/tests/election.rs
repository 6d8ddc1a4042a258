//! The product's election beside the reference's.

#[path = "suites/election.rs"]
mod suite;

use paddockyear_tests::subjects::product as subject;
