//! The three columns of three row servers.

use super::terms::{ballots_within_limits, difference, refusal, sum};

/// Adds its offset to each number, then puts at place i the sum from place perm(i).
pub fn column(modulus: u32, row: &[u32], offsets: &[u32], permutation: &[u16]) -> Vec<u32> {
    let sums: Vec<u32> = row.iter().zip(offsets).map(|(&r, &o)| sum(modulus, &[r, o])).collect();
    permutation.iter().map(|&from| sums[usize::from(from)]).collect()
}

/// Row three's offset at each place: the three add to 0.
pub fn third_offsets(modulus: u32, first: &[u32], second: &[u32]) -> Vec<u32> {
    let pairs = first.iter().zip(second);
    pairs.map(|(&a, &b)| difference(modulus, 0, sum(modulus, &[a, b]))).collect()
}

/// What is left of each number beside its given first half.
pub fn second_halves(modulus: u32, numbers: &[u32], firsts: &[u32]) -> Vec<u32> {
    numbers.iter().zip(firsts).map(|(&number, &first)| difference(modulus, number, first)).collect()
}

/// s(i) = perm1(perm2(perm3(i))).
pub fn composed(permutations: [&[u16]; 3]) -> Vec<usize> {
    let [first, second, third] = permutations;
    third.iter().map(|&i| usize::from(first[usize::from(second[usize::from(i)])])).collect()
}

/// Each place below its length, once.
pub fn is_permutation(places: &[u16]) -> bool {
    let mut sorted = places.to_vec();
    sorted.sort_unstable();
    sorted.iter().enumerate().all(|(due, &place)| usize::from(place) == due)
}

fn check(modulus: u32, n: u32, lengths: &[usize], numbers: [&[u32]; 2]) -> Result<(), u8> {
    if modulus < 2 || !ballots_within_limits(n) {
        return Err(refusal::LIMITS);
    }
    if lengths.iter().any(|&length| length != n as usize) {
        return Err(refusal::LENGTH);
    }
    if numbers.concat().iter().any(|&number| number >= modulus) {
        return Err(refusal::NUMBER);
    }
    Ok(())
}

/// One row server's column, or 3, 18, 10, 19.
pub fn row_server(
    modulus: u32,
    n: u32,
    row: &[u32],
    offsets: &[u32],
    permutation: &[u16],
    out: &mut [u32],
) -> Result<(), u8> {
    let lengths = [row.len(), offsets.len(), permutation.len(), out.len()];
    check(modulus, n, &lengths, [row, offsets])?;
    if !is_permutation(permutation) {
        return Err(refusal::PERMUTATION);
    }
    out.copy_from_slice(&column(modulus, row, offsets, permutation));
    Ok(())
}

/// Row three's offsets from those of rows one and two, or 3, 18, 10.
pub fn offsets_server(
    modulus: u32,
    n: u32,
    first: &[u32],
    second: &[u32],
    out: &mut [u32],
) -> Result<(), u8> {
    check(modulus, n, &[first.len(), second.len(), out.len()], [first, second])?;
    out.copy_from_slice(&third_offsets(modulus, first, second));
    Ok(())
}

/// The third column's split: the second halves, or 3, 18, 10.
pub fn split_server(
    modulus: u32,
    n: u32,
    numbers: &[u32],
    firsts: &[u32],
    out: &mut [u32],
) -> Result<(), u8> {
    check(modulus, n, &[numbers.len(), firsts.len(), out.len()], [numbers, firsts])?;
    out.copy_from_slice(&second_halves(modulus, numbers, firsts));
    Ok(())
}
