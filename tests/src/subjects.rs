//! What the suites run: the reference, or the product beside it.

#[cfg(feature = "linked")]
pub mod product;

/// The reference alone.
pub mod reference {
    pub use crate::reference::calendar::{calendar, window_at};
    pub use crate::reference::columns::{offsets_server, row_server, split_server};
    pub use crate::reference::drawing::mask_entry;
    pub use crate::reference::election::election;
    pub use crate::reference::judge::judge;
    pub use crate::reference::receipt::{check_receipt, look_up};
    pub use crate::reference::results::{announced_votes, tally};
    pub use crate::reference::runoff::runoff;
    pub use crate::reference::sha3::{keccak_f, sha3_224, sha3_256};
    pub use crate::reference::tablet::tablet;
    pub use crate::reference::writer::{part_one, part_three, part_two};
}
