//! What the product's judge accepts of all throws, beside the reference's.

#[path = "suites/throws/mod.rs"]
mod throws;

use paddockyear_tests::subjects::product as subject;
