//! The judge: number and place.

use crate::ffi::judge::{first_fault, judge_as_drawn, judge_plainly};
use crate::reference::judge::{self as reference, Fault, Judging};

/// What a place holds that the product does not write.
const NOISE: u64 = 0xA5A5_5A5A_0F0F_F0F0;

pub fn judge(record: &[u8], judging: Judging) -> Result<Vec<u32>, Fault> {
    let due = reference::judge(record, judging);
    let (number, place) = match &due {
        Ok(_) => (0, NOISE),
        Err(fault) => (u32::from(fault.number), fault.place as u64),
    };
    let judged = match judging {
        Judging::Plain => judge_plainly(record),
        Judging::Drawn => judge_as_drawn(record),
    };
    assert_eq!(judged, number, "{judging:?}, {} bytes", record.len());
    let mut found = NOISE;
    let fault = first_fault(record, judging == Judging::Drawn, &mut found);
    assert_eq!((fault, found), (number, place), "{judging:?}, {} bytes", record.len());
    due
}
