//! A second implementation of document 01, written from the papers, and the boards that the
//! tests run through it and through the product.

pub mod boards;
pub mod contracts;
pub mod crates;
pub mod days;
pub mod division;
#[cfg(feature = "edited")]
pub mod edited;
pub mod edits;
#[cfg(feature = "linked")]
pub mod ffi;
pub mod lent;
pub mod random;
pub mod reference;
pub mod subjects;
pub mod throws;
#[cfg(feature = "linked")]
pub mod wrapper;

/// In lower-case hexadecimal digits.
pub fn hex(bytes: &[u8]) -> String {
    bytes.iter().map(|byte| format!("{byte:02x}")).collect()
}
