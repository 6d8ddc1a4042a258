//! The product's tablet beside the reference's.

#[path = "suites/tablet.rs"]
mod suite;

use paddockyear_tests::subjects::product as subject;
