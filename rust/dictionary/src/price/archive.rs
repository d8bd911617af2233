//! The function of the archive, and a slice lent to it. All `unsafe` of the price sheet is here.

use crate::returned::Totalled;

extern "C" {
    fn price_deliveries(count: u32, sheet: *const u8, sheet_len: usize) -> Totalled;
}

pub fn deliveries(count: u32, sheet: &[u8]) -> Totalled {
    // SAFETY: the function has no `requires`, so any number and slice may be lent. Pointer and length
    // are those of a live slice, which the function only reads and does not keep.
    unsafe { price_deliveries(count, sheet.as_ptr(), sheet.len()) }
}
