//! In the place of the archive where it is not built: the four functions panic.

use crate::returned::{Checked, Foreseen, Listed, Ran};

pub fn run(_: u32, _: u32, _: &[u8], _: &mut [u32], _: &mut [u8]) -> Ran {
    panic!("{}", crate::NOT_BUILT)
}

pub fn list_order(_: u32, _: u32, _: &[u8], _: &mut [u32], _: &mut [u8]) -> Listed {
    panic!("{}", crate::NOT_BUILT)
}

pub fn check_log(_: u32, _: u32, _: &[u8], _: &[u8], _: &mut [u32]) -> Checked {
    panic!("{}", crate::NOT_BUILT)
}

pub fn forecast(_: u32, _: u32, _: &[u8]) -> Foreseen {
    panic!("{}", crate::NOT_BUILT)
}
