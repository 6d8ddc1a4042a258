//! The announced votes of a record, and their tally.

use super::judge::{judge, Judging};
use super::terms::refusal;

/// Writes an accepted record's votes; the plain judge's number, then 18.
pub fn announced_votes(record: &[u8], out: &mut [u32]) -> Result<(), u8> {
    let votes = judge(record, Judging::Plain).map_err(|fault| fault.number)?;
    if out.len() != votes.len() {
        return Err(refusal::LENGTH);
    }
    out.copy_from_slice(&votes);
    Ok(())
}

/// Each distinct vote with how often it stands; the votes do not fall.
pub fn counted(votes: &[u32]) -> Vec<(u32, u64)> {
    let runs = votes.chunk_by(|a, b| a == b);
    runs.map(|run| (run[0], run.len() as u64)).collect()
}

/// Writes the pairs and answers how many, or 18, then 15. What lies behind the last pair stays.
pub fn tally(votes: &[u32], values: &mut [u32], counts: &mut [u64]) -> Result<usize, u8> {
    if values.len() != votes.len() || counts.len() != votes.len() {
        return Err(refusal::LENGTH);
    }
    if !votes.is_sorted() {
        return Err(refusal::VOTE_FALLS);
    }
    let pairs = counted(votes);
    for (place, &(value, count)) in pairs.iter().enumerate() {
        values[place] = value;
        counts[place] = count;
    }
    Ok(pairs.len())
}
