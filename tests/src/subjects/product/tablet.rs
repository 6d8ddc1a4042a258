//! The tablet.

use crate::ffi::tablet as product;
use crate::lent::{number_of, Lent};
use crate::reference::tablet::{self as reference, SplitVote};
use crate::reference::terms::Form;

pub fn tablet(
    form: Form,
    modulus: u32,
    id: u32,
    split: &SplitVote,
    keys: &[u8],
    command: &mut [u8],
    receipt: &mut [u8],
) -> Result<(), u8> {
    let (mut lent_command, mut lent_receipt) = (Lent::new(command), Lent::new(receipt));
    let (command_out, receipt_out) = (lent_command.slice(), lent_receipt.slice());
    let found = product::tablet(form.into(), modulus, id, split, keys, command_out, receipt_out);
    let due = reference::tablet(form, modulus, id, split, keys, command, receipt);
    assert_eq!(found, number_of(&due));
    lent_command.check(command);
    lent_receipt.check(receipt);
    due
}
