//! Judging a record.

mod faces {
    extern "C" {
        pub fn paddockyear_judge_plainly(bytes: *const u8, len: usize) -> u32;
        pub fn paddockyear_judge_as_drawn(bytes: *const u8, len: usize) -> u32;
        pub fn paddockyear_first_fault(
            bytes: *const u8,
            len: usize,
            drawn: u32,
            place: *mut u64,
        ) -> u32;
    }
}

/// 0 for an accepted record, else the number of the first rule broken.
pub fn judge_plainly(record: &[u8]) -> u32 {
    // SAFETY: the face reads the slice.
    unsafe { faces::paddockyear_judge_plainly(record.as_ptr(), record.len()) }
}

/// 0 for an accepted record, else the number of the first rule broken.
pub fn judge_as_drawn(record: &[u8]) -> u32 {
    // SAFETY: the face reads the slice.
    unsafe { faces::paddockyear_judge_as_drawn(record.as_ptr(), record.len()) }
}

/// The same numbers; `place` gets where the faulty command starts, if there is one.
pub fn first_fault(record: &[u8], drawn: bool, place: &mut u64) -> u32 {
    // SAFETY: the face reads the slice and writes the place.
    unsafe {
        faces::paddockyear_first_fault(record.as_ptr(), record.len(), u32::from(drawn), place)
    }
}
