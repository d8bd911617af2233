//! The functions of the archive, and slices lent to them. All of this crate's `unsafe` is here.

use crate::returned::{Checked, Foreseen, Listed, Ran};

extern "C" {
    fn otq_run(
        p: u32,
        l: u32,
        records: *const u8,
        records_len: usize,
        table: *mut u32,
        table_len: usize,
        answers: *mut u8,
        answers_len: usize,
    ) -> Ran;

    fn otq_list_order(
        p: u32,
        l: u32,
        records: *const u8,
        records_len: usize,
        table: *mut u32,
        table_len: usize,
        output: *mut u8,
        output_len: usize,
    ) -> Listed;

    fn otq_check_log(
        p: u32,
        l: u32,
        records: *const u8,
        records_len: usize,
        log: *const u8,
        log_len: usize,
        table: *mut u32,
        table_len: usize,
    ) -> Checked;

    fn otq_forecast(p: u32, l: u32, begins: *const u8, begins_len: usize) -> Foreseen;
}

// SAFETY of the four calls: the functions have no `requires`, so any numbers and slices may be
// lent. Each pointer and length is that of a live slice, the mutable ones are of no other, and the
// functions keep none of them.

pub fn run(p: u32, l: u32, records: &[u8], table: &mut [u32], answers: &mut [u8]) -> Ran {
    unsafe {
        otq_run(
            p,
            l,
            records.as_ptr(),
            records.len(),
            table.as_mut_ptr(),
            table.len(),
            answers.as_mut_ptr(),
            answers.len(),
        )
    }
}

pub fn list_order(p: u32, l: u32, records: &[u8], table: &mut [u32], output: &mut [u8]) -> Listed {
    unsafe {
        otq_list_order(
            p,
            l,
            records.as_ptr(),
            records.len(),
            table.as_mut_ptr(),
            table.len(),
            output.as_mut_ptr(),
            output.len(),
        )
    }
}

pub fn check_log(p: u32, l: u32, records: &[u8], log: &[u8], table: &mut [u32]) -> Checked {
    unsafe {
        otq_check_log(
            p,
            l,
            records.as_ptr(),
            records.len(),
            log.as_ptr(),
            log.len(),
            table.as_mut_ptr(),
            table.len(),
        )
    }
}

pub fn forecast(p: u32, l: u32, begins: &[u8]) -> Foreseen {
    unsafe { otq_forecast(p, l, begins.as_ptr(), begins.len()) }
}
