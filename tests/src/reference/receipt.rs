//! The receipt check, and the lookup that stops early. Copied ballots are not theirs to refuse.

use super::judge::{ballot, ballots, parameters, Fault, Reader};
use super::sha3::sha3_224;
use super::terms::{refusal, Form, NOW};

#[derive(Clone, Copy, Debug, PartialEq, Eq)]
pub enum Posted {
    AsPrinted,
    Otherwise,
    Not,
}

/// Reads the parameters and all ballots, and nothing behind them; 18, then 1 to 5.
pub fn check_receipt(record: &[u8], receipt: &[u8]) -> Result<Posted, u8> {
    let receipt: &[u8; 32] = receipt.try_into().map_err(|_| refusal::LENGTH)?;
    let (form, ids) = posted_ids(record).map_err(|fault| fault.number)?;
    Ok(match ids.iter().position(|&id| id == id_of(receipt)) {
        None => Posted::Not,
        Some(ballot) => compared(command(record, form, ballot), receipt),
    })
}

/// Reads the parameters and ballot after ballot, to the first whose id is the one sought or larger,
/// and nothing behind it; 18, then 1 to 5.
pub fn look_up(record: &[u8], receipt: &[u8]) -> Result<Posted, u8> {
    let receipt: &[u8; 32] = receipt.try_into().map_err(|_| refusal::LENGTH)?;
    let sought = id_of(receipt);
    let (form, stop) = stopping_ballot(record, sought).map_err(|fault| fault.number)?;
    Ok(match stop {
        Some((ballot, id)) if id == sought => compared(command(record, form, ballot), receipt),
        Some(_) | None => Posted::Not,
    })
}

fn posted_ids(record: &[u8]) -> Result<(Form, Vec<u32>), Fault> {
    let mut reader = Reader::new(record);
    let parameters = parameters(&mut reader, NOW)?;
    let ids = ballots(&mut reader, &parameters, true)?.iter().map(|ballot| ballot.id).collect();
    Ok((parameters.form, ids))
}

/// The first ballot whose id is the one sought or larger, and that id. A ballot's own rules come
/// before the look at its id.
fn stopping_ballot(record: &[u8], sought: u32) -> Result<(Form, Option<(usize, u32)>), Fault> {
    let mut reader = Reader::new(record);
    let parameters = parameters(&mut reader, NOW)?;
    let mut before = None;
    for j in 0..parameters.ballots() {
        let id = ballot(&mut reader, before)?.id;
        if id >= sought {
            return Ok((parameters.form, Some((j, id))));
        }
        before = Some(id);
    }
    Ok((parameters.form, None))
}

fn id_of(receipt: &[u8; 32]) -> u32 {
    u32::from_be_bytes(receipt[..4].try_into().unwrap())
}

fn compared(command: &[u8], receipt: &[u8; 32]) -> Posted {
    match sha3_224(command) == receipt[4..] {
        true => Posted::AsPrinted,
        false => Posted::Otherwise,
    }
}

fn command(record: &[u8], form: Form, ballot: usize) -> &[u8] {
    &record[form.width() + 197 * ballot..][..197]
}
