//! The product's instant runoff beside the reference's.

#[path = "suites/runoff.rs"]
mod suite;

use paddockyear_tests::subjects::product as subject;
