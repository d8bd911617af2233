//! Buffers with a known content, lent from the middle of a longer one.

/// Elements on each side of what is lent; a call must not touch them. An odd number, so that bytes
/// are lent at an odd address.
const MARGIN: usize = 9;

/// A buffer whose middle is lent.
#[derive(Clone, PartialEq, Eq, Debug)]
pub struct Buffer<T> {
    all: Vec<T>,
}

impl<T> Buffer<T> {
    pub fn lent(&mut self) -> &mut [T] {
        let end = self.all.len() - MARGIN;
        &mut self.all[MARGIN..end]
    }
}

/// No zero and no two neighbours alike, so that a cleared, kept or moved element shows.
pub fn words(count: usize) -> Buffer<u32> {
    let all = 0..(count + 2 * MARGIN) as u32;
    Buffer {
        all: all.map(|i| 0xa5a5_0000 + i).collect(),
    }
}

/// As `words`, for bytes.
pub fn bytes(count: usize) -> Buffer<u8> {
    let all = 0..count + 2 * MARGIN;
    Buffer {
        all: all.map(|i| 1 + (i % 251) as u8).collect(),
    }
}
