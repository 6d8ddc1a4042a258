//! SHA-3 and its permutation.

use crate::ffi::hash as product;
use crate::reference::sha3 as reference;

pub fn sha3_224(message: &[u8]) -> [u8; 28] {
    let due = reference::sha3_224(message);
    assert_eq!(product::sha3_224(message), due, "{} bytes", message.len());
    due
}

pub fn sha3_256(message: &[u8]) -> [u8; 32] {
    let due = reference::sha3_256(message);
    assert_eq!(product::sha3_256(message), due, "{} bytes", message.len());
    due
}

pub fn keccak_f(lanes: &mut [u64; 25]) {
    let mut found = *lanes;
    product::keccak_f(&mut found);
    reference::keccak_f(lanes);
    assert_eq!(found, *lanes);
}
