//! The faces of the product's static library, as include/paddockyear.h has them: a lent slice is
//! a pointer and then a length. One module for each group of entries.

pub mod calendar;
pub mod columns;
pub mod election;
pub mod hash;
pub mod judge;
pub mod parts;
pub mod results;
pub mod runoff;
pub mod tablet;

use crate::reference::terms::Form;

/// How a face is told the form: a flag, 0 for command 01 and any other value for 0C, and the
/// election's number, which is not looked at where the flag is 0.
#[derive(Clone, Copy, Debug, PartialEq, Eq)]
pub struct Told {
    pub numbered: u32,
    pub election: u32,
}

impl Told {
    /// The form that the face has to take it for.
    pub fn form(self) -> Form {
        match self.numbered {
            0 => Form::Unnumbered,
            _ => Form::Numbered(self.election),
        }
    }
}

/// Noise stands for the number of an election without one.
impl From<Form> for Told {
    fn from(form: Form) -> Self {
        match form {
            Form::Unnumbered => Told { numbered: 0, election: 0xA5A5_5A5A },
            Form::Numbered(election) => Told { numbered: 1, election },
        }
    }
}
