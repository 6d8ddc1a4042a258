//! The election.

use crate::ffi::election as product;
use crate::lent::{number_of, Lent};
use crate::reference::election::{self as reference, DiceTable};
use crate::reference::writer::Inputs;

pub fn election(inputs: &Inputs, table: &DiceTable, mut buffers: [&mut [u8]; 4]) -> Result<(), u8> {
    let mut lent = buffers.each_ref().map(|buffer| Lent::new(buffer));
    let told = inputs.parameters.form.into();
    let found = product::election(told, inputs, table, lent.each_mut().map(Lent::slice));
    let due = reference::election(inputs, table, buffers.each_mut().map(|buffer| &mut **buffer));
    assert_eq!(found, number_of(&due));
    lent.iter().zip(&buffers).for_each(|(lent, buffer)| lent.check(buffer));
    due
}
