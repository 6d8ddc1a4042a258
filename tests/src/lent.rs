//! Buffers lent to the product, with what lies around them.

use std::fmt::Debug;

const MARGIN: usize = 16;

/// A slice from the middle of a longer one, so that writing outside it shows.
pub struct Lent<T> {
    cells: Vec<T>,
}

impl<T: Copy + Debug + PartialEq + From<u8>> Lent<T> {
    pub fn new(content: &[T]) -> Self {
        let (before, behind) = (margin(0x35), margin(0xA6));
        Lent { cells: [&before, content, &behind].concat() }
    }

    pub fn slice(&mut self) -> &mut [T] {
        let end = self.cells.len() - MARGIN;
        &mut self.cells[MARGIN..end]
    }

    /// The slice holds this, and nothing was written around it.
    pub fn check(&self, due: &[T]) {
        let due = Lent::new(due).cells;
        assert_eq!(self.cells.len(), due.len());
        if let Some(cell) = (0..due.len()).find(|&cell| self.cells[cell] != due[cell]) {
            let place = cell as i64 - MARGIN as i64;
            panic!("place {place}: {:?}, due is {:?}", self.cells[cell], due[cell]);
        }
    }
}

fn margin<T: From<u8>>(first: u8) -> Vec<T> {
    (first..).take(MARGIN).map(T::from).collect()
}

/// The answer as the faces have it: 0, or the refusal's number.
pub fn number_of<T>(answer: &Result<T, u8>) -> u32 {
    answer.as_ref().map_or_else(|&number| u32::from(number), |_| 0)
}
