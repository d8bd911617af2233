//! In the place of the archive where it is not built: the function panics.

use crate::returned::Delivered;

pub fn deliver(_: u32, _: u32, _: u32, _: &[u8], _: &mut [u32], _: &mut [u8]) -> Delivered {
    panic!("{}", crate::NOT_BUILT)
}
