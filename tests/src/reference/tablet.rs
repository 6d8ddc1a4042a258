//! The tablet: a vote split into six committed numbers, and the receipt.

use super::sha3::sha3_224;
use super::terms::{difference, refusal, Form, Holder, Opening, Scheme};

/// A vote w with its shares x and y and the first halves u1, u2, u3.
#[derive(Clone, Copy, Debug, PartialEq, Eq)]
pub struct SplitVote {
    pub vote: u32,
    pub shares: [u32; 2],
    pub firsts: [u32; 3],
}

impl SplitVote {
    pub fn given(&self) -> [u32; 6] {
        let ([x, y], [u1, u2, u3]) = (self.shares, self.firsts);
        [self.vote, x, y, u1, u2, u3]
    }

    /// x, y and z = w - x - y.
    pub fn rows(&self, modulus: u32) -> [u32; 3] {
        let [x, y] = self.shares;
        let z = difference(modulus, difference(modulus, self.vote, x), y);
        [x, y, z]
    }

    /// u1, v1, u2, v2, u3, v3.
    pub fn six(&self, modulus: u32) -> [u32; 6] {
        halves(modulus, self.rows(modulus), self.firsts)
    }
}

/// Each number's first half and then what is left of it.
pub fn halves(modulus: u32, numbers: [u32; 3], firsts: [u32; 3]) -> [u32; 6] {
    let mut six = [0; 6];
    for row in 0..3 {
        six[2 * row] = firsts[row];
        six[2 * row + 1] = difference(modulus, numbers[row], firsts[row]);
    }
    six
}

/// Six numbers with six keys of 32 bytes in the same order.
pub fn openings(numbers: [u32; 6], keys: &[u8]) -> [Opening; 6] {
    assert_eq!(keys.len(), 192);
    std::array::from_fn(|slot| Opening {
        key: keys[32 * slot..32 * (slot + 1)].try_into().unwrap(),
        number: numbers[slot],
    })
}

/// Command 02.
pub fn ballot_command(scheme: Scheme, id: u32, openings: &[Opening; 6]) -> Vec<u8> {
    let mut command = vec![0x02];
    command.extend(id.to_be_bytes());
    command.extend(scheme.six(Holder::Ballot { id }, openings).as_flattened());
    command
}

/// The id, then the SHA3-224 of the ballot's command.
pub fn receipt(id: u32, command: &[u8]) -> [u8; 32] {
    let mut receipt = [0; 32];
    receipt[..4].copy_from_slice(&id.to_be_bytes());
    receipt[4..].copy_from_slice(&sha3_224(command));
    receipt
}

/// Writes a ballot's command and its receipt, or answers 3, 18 or 10.
pub fn tablet(
    form: Form,
    modulus: u32,
    id: u32,
    split: &SplitVote,
    keys: &[u8],
    command_out: &mut [u8],
    receipt_out: &mut [u8],
) -> Result<(), u8> {
    if modulus < 2 {
        return Err(refusal::LIMITS);
    }
    if keys.len() != 192 || command_out.len() != 197 || receipt_out.len() != 32 {
        return Err(refusal::LENGTH);
    }
    if split.given().iter().any(|&number| number >= modulus) {
        return Err(refusal::NUMBER);
    }
    let command = ballot_command(form.scheme(), id, &openings(split.six(modulus), keys));
    command_out.copy_from_slice(&command);
    receipt_out.copy_from_slice(&receipt(id, &command));
    Ok(())
}
