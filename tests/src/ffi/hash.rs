//! SHA-3 and its permutation.

mod faces {
    extern "C" {
        pub fn paddockyear_sha3_224(m: *const u8, m_len: usize, out: *mut u8);
        pub fn paddockyear_sha3_256(m: *const u8, m_len: usize, out: *mut u8);
        pub fn paddockyear_sha3_224_parts(
            a: *const u8,
            a_len: usize,
            b: *const u8,
            b_len: usize,
            c: *const u8,
            c_len: usize,
            out: *mut u8,
        );
        pub fn paddockyear_sha3_256_parts(
            a: *const u8,
            a_len: usize,
            b: *const u8,
            b_len: usize,
            c: *const u8,
            c_len: usize,
            out: *mut u8,
        );
        pub fn paddockyear_keccak_f(lanes: *mut u64);
    }
}

pub fn sha3_224(message: &[u8]) -> [u8; 28] {
    let mut out = [0; 28];
    // SAFETY: the face reads the slice and writes 28 bytes.
    unsafe { faces::paddockyear_sha3_224(message.as_ptr(), message.len(), out.as_mut_ptr()) };
    out
}

pub fn sha3_256(message: &[u8]) -> [u8; 32] {
    let mut out = [0; 32];
    // SAFETY: the face reads the slice and writes 32 bytes.
    unsafe { faces::paddockyear_sha3_256(message.as_ptr(), message.len(), out.as_mut_ptr()) };
    out
}

/// The digest of three slices one after the other.
pub fn sha3_224_parts([a, b, c]: [&[u8]; 3]) -> [u8; 28] {
    let mut out = [0; 28];
    // SAFETY: the face reads the three slices and writes 28 bytes.
    unsafe {
        faces::paddockyear_sha3_224_parts(
            a.as_ptr(),
            a.len(),
            b.as_ptr(),
            b.len(),
            c.as_ptr(),
            c.len(),
            out.as_mut_ptr(),
        )
    };
    out
}

/// The digest of three slices one after the other.
pub fn sha3_256_parts([a, b, c]: [&[u8]; 3]) -> [u8; 32] {
    let mut out = [0; 32];
    // SAFETY: the face reads the three slices and writes 32 bytes.
    unsafe {
        faces::paddockyear_sha3_256_parts(
            a.as_ptr(),
            a.len(),
            b.as_ptr(),
            b.len(),
            c.as_ptr(),
            c.len(),
            out.as_mut_ptr(),
        )
    };
    out
}

pub fn keccak_f(lanes: &mut [u64; 25]) {
    // SAFETY: the face reads and writes 25 lanes.
    unsafe { faces::paddockyear_keccak_f(lanes.as_mut_ptr()) };
}
