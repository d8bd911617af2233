//! What the functions of the archives return, as they return it.

#[repr(C)]
pub struct Delivered {
    pub refusal: u32,
    pub count: u64,
}

#[repr(C)]
pub struct Totalled {
    pub refusal: u32,
    pub cents: u32,
    pub remainder: u32,
}

/// The refusal that was returned as a number; 0 is none.
pub fn refusal_of<R>(number: u32, from_number: fn(u32) -> Option<R>) -> Option<R> {
    let refusal = from_number(number);
    let is_known = refusal.is_some() || number == 0;
    assert!(is_known, "the library returned refusal {number}");
    refusal
}
