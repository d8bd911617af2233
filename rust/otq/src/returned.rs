//! What the functions of the archive return, as they return it.

/// What `check_log` returns as its verdict.
pub const SAME: u32 = 0;
pub const DIFFERS: u32 = 1;
pub const REFUSED: u32 = 2;

#[repr(C)]
pub struct Ran {
    pub refusal: u32,
    pub taken: u64,
    pub answers: u64,
}

#[repr(C)]
pub struct Listed {
    pub refusal: u32,
    pub length: u64,
}

#[repr(C)]
pub struct Checked {
    pub refusal: u32,
    pub verdict: u32,
    pub index: u64,
}

#[repr(C)]
pub struct Foreseen {
    pub refusal: u32,
    pub words: u64,
    pub answer_bytes: u64,
    pub records: u64,
}
