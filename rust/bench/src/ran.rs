//! What a call of Run returns.

#[derive(Clone, Copy, Default, PartialEq, Eq, Debug)]
pub struct Ran {
    /// The paper's number, 0 for none.
    pub refusal: u32,
    /// Records taken.
    pub taken: u64,
    /// Answers written.
    pub answers: u64,
}

impl Ran {
    /// A call turned down before its records.
    pub fn refused(refusal: u32) -> Ran {
        Ran {
            refusal,
            ..Ran::default()
        }
    }
}
