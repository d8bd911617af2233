//! The function of the archive, and slices lent to it. All of this crate's `unsafe` is here.

use crate::returned::Delivered;

extern "C" {
    fn desk_deliver(
        p: u32,
        l: u32,
        licensed: u32,
        records: *const u8,
        records_len: usize,
        table: *mut u32,
        table_len: usize,
        output: *mut u8,
        output_len: usize,
    ) -> Delivered;
}

pub fn deliver(
    p: u32,
    l: u32,
    licensed: u32,
    records: &[u8],
    table: &mut [u32],
    output: &mut [u8],
) -> Delivered {
    // SAFETY: the function has no `requires`, so any numbers and slices may be lent. Each pointer and
    // length is that of a live slice, the mutable ones are of no other, and the function keeps none.
    unsafe {
        desk_deliver(
            p,
            l,
            licensed,
            records.as_ptr(),
            records.len(),
            table.as_mut_ptr(),
            table.len(),
            output.as_mut_ptr(),
            output.len(),
        )
    }
}
