//! The row servers' entries.

mod faces {
    extern "C" {
        pub fn paddockyear_row_server(
            modulus: u32,
            n: u32,
            numbers: *const u32,
            numbers_len: usize,
            offsets: *const u32,
            offsets_len: usize,
            permutation: *const u16,
            permutation_len: usize,
            out: *mut u32,
            out_len: usize,
        ) -> u32;
        pub fn paddockyear_third_row_offsets(
            modulus: u32,
            n: u32,
            first: *const u32,
            first_len: usize,
            second: *const u32,
            second_len: usize,
            out: *mut u32,
            out_len: usize,
        ) -> u32;
        pub fn paddockyear_split(
            modulus: u32,
            n: u32,
            numbers: *const u32,
            numbers_len: usize,
            first_halves: *const u32,
            first_halves_len: usize,
            out: *mut u32,
            out_len: usize,
        ) -> u32;
    }
}

/// 0, or the refusal's number.
pub fn row_server(
    modulus: u32,
    n: u32,
    numbers: &[u32],
    offsets: &[u32],
    permutation: &[u16],
    out: &mut [u32],
) -> u32 {
    // SAFETY: the face reads the three slices and writes `out`.
    unsafe {
        faces::paddockyear_row_server(
            modulus,
            n,
            numbers.as_ptr(),
            numbers.len(),
            offsets.as_ptr(),
            offsets.len(),
            permutation.as_ptr(),
            permutation.len(),
            out.as_mut_ptr(),
            out.len(),
        )
    }
}

/// 0, or the refusal's number.
pub fn third_row_offsets(
    modulus: u32,
    n: u32,
    first: &[u32],
    second: &[u32],
    out: &mut [u32],
) -> u32 {
    // SAFETY: the face reads the two slices and writes `out`.
    unsafe {
        faces::paddockyear_third_row_offsets(
            modulus,
            n,
            first.as_ptr(),
            first.len(),
            second.as_ptr(),
            second.len(),
            out.as_mut_ptr(),
            out.len(),
        )
    }
}

/// 0, or the refusal's number.
pub fn split(modulus: u32, n: u32, numbers: &[u32], first_halves: &[u32], out: &mut [u32]) -> u32 {
    // SAFETY: the face reads the two slices and writes `out`.
    unsafe {
        faces::paddockyear_split(
            modulus,
            n,
            numbers.as_ptr(),
            numbers.len(),
            first_halves.as_ptr(),
            first_halves.len(),
            out.as_mut_ptr(),
            out.len(),
        )
    }
}
