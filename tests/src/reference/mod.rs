//! Document 01, and the items of document 02 that are built, in plain Rust: clarity before speed.

pub mod calendar;
pub mod columns;
pub mod drawing;
pub mod election;
pub mod judge;
pub mod page;
pub mod receipt;
pub mod results;
pub mod runoff;
pub mod sha3;
pub mod tablet;
pub mod terms;
pub mod writer;
