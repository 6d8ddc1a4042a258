//! Calls of the entries with everything they are lent, and every way of getting one refused.

pub mod columns;
pub mod draw;
pub mod election;
pub mod inputs;
pub mod misuse;
pub mod parts;
pub mod tablet;
