//! The product's three parts and its draw of the mask beside the reference's.

#[path = "suites/parts/mod.rs"]
mod suite;

use paddockyear_tests::subjects::product as subject;
