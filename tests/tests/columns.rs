//! The product's columns beside the reference's.

#[path = "suites/columns.rs"]
mod suite;

use paddockyear_tests::subjects::product as subject;
