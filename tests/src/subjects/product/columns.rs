//! The row servers.

use super::compare;
use crate::ffi::columns as product;
use crate::reference::columns as reference;

pub fn row_server(
    modulus: u32,
    n: u32,
    row: &[u32],
    offsets: &[u32],
    permutation: &[u16],
    out: &mut [u32],
) -> Result<(), u8> {
    compare(
        out,
        |out| product::row_server(modulus, n, row, offsets, permutation, out),
        |out| reference::row_server(modulus, n, row, offsets, permutation, out),
    )
}

pub fn offsets_server(
    modulus: u32,
    n: u32,
    first: &[u32],
    second: &[u32],
    out: &mut [u32],
) -> Result<(), u8> {
    compare(
        out,
        |out| product::third_row_offsets(modulus, n, first, second, out),
        |out| reference::offsets_server(modulus, n, first, second, out),
    )
}

pub fn split_server(
    modulus: u32,
    n: u32,
    numbers: &[u32],
    firsts: &[u32],
    out: &mut [u32],
) -> Result<(), u8> {
    compare(
        out,
        |out| product::split(modulus, n, numbers, firsts, out),
        |out| reference::split_server(modulus, n, numbers, firsts, out),
    )
}
