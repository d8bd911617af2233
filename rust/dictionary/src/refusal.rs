//! Why a delivery is turned down.

use std::error::Error;
use std::fmt;

/// Why a delivery is turned down; the discriminants are the paper's numbers. Shown, it is a line of
/// text.
///
/// It is the first test that fails, in this order: of the call 1, 2, 13, 3, 4; record by record of a
/// begin 5, 8, 6, 14 and of a step 5, 7; at the end 10. So a foreign entry of a process that may not
/// begin is not [`ForeignEntry`](Refusal::ForeignEntry):
///
/// ```
/// use dictionary::{terms, Refusal};
/// let entry = [1, 1, 0, 0, 5, 0, 0, 0x80];
/// let put = [1, 1, 0, 0, 5, 0, 0, 0];
/// assert_eq!(terms(2, 2, 1, &entry), Ok(vec![]));
/// assert_eq!(terms(2, 2, 0, &entry), Err(Refusal::ForeignEntry));
/// assert_eq!(terms(2, 2, 0, &[put, entry].concat()), Err(Refusal::BeginWhileBusy));
/// assert_eq!(terms(2, 1, 0, &[put, entry].concat()), Err(Refusal::BegunAll));
/// ```
#[derive(Clone, Copy, PartialEq, Eq, Hash, Debug)]
#[repr(u32)]
pub enum Refusal {
    /// p is not 2, 4 or 8.
    Processes = 1,
    /// l is not 1 to 500.
    Operations = 2,
    /// The work table is shorter than the words needed.
    TableShort = 3,
    /// The record bytes are not a multiple of 8.
    RecordsTorn = 4,
    /// A process not below p, a kind above 2, or a byte that must be zero.
    IllFormed = 5,
    /// A begin while the process is not idle.
    BeginWhileBusy = 6,
    /// A step while the process is idle.
    StepWhileIdle = 7,
    /// A begin by a process that has begun l.
    BegunAll = 8,
    /// The terms are longer than the output.
    OutputShort = 10,
    /// The licensed process is not below p.
    Licence = 13,
    /// A begin of a put of an entry by a process that is not the licensed one.
    ForeignEntry = 14,
}

impl Refusal {
    /// All of them, in the order of their numbers.
    pub const ALL: [Refusal; 11] = [
        Refusal::Processes,
        Refusal::Operations,
        Refusal::TableShort,
        Refusal::RecordsTorn,
        Refusal::IllFormed,
        Refusal::BeginWhileBusy,
        Refusal::StepWhileIdle,
        Refusal::BegunAll,
        Refusal::OutputShort,
        Refusal::Licence,
        Refusal::ForeignEntry,
    ];

    /// The paper's number.
    ///
    /// ```
    /// assert_eq!(dictionary::Refusal::ForeignEntry.number(), 14);
    /// ```
    pub fn number(self) -> u32 {
        self as u32
    }

    /// The refusal with this number; `None` for 0, and for a number that the desk does not have.
    ///
    /// ```
    /// use dictionary::Refusal;
    /// assert_eq!(Refusal::from_number(13), Some(Refusal::Licence));
    /// assert_eq!(Refusal::from_number(0), None);
    /// assert_eq!(Refusal::from_number(9), None);
    /// ```
    pub fn from_number(number: u32) -> Option<Refusal> {
        with_number(&Self::ALL, Refusal::number, number)
    }
}

/// Of all refusals of a call, the one with this number.
pub fn with_number<R: Copy>(all: &[R], number_of: fn(R) -> u32, number: u32) -> Option<R> {
    let mut all = all.iter().copied();
    all.find(|&refusal| number_of(refusal) == number)
}

impl fmt::Display for Refusal {
    fn fmt(&self, f: &mut fmt::Formatter) -> fmt::Result {
        f.write_str(match self {
            Refusal::Processes => "the number of processes is not 2, 4 or 8",
            Refusal::Operations => "the most operations of a process are not 1 to 500",
            Refusal::TableShort => "the work table is too short",
            Refusal::RecordsTorn => "the record bytes are not a multiple of 8",
            Refusal::IllFormed => "a record is ill-formed",
            Refusal::BeginWhileBusy => "a process begins an operation while it is inside another",
            Refusal::StepWhileIdle => "a process steps while it is inside no operation",
            Refusal::BegunAll => "a process begins more operations than it may",
            Refusal::OutputShort => "the terms are longer than the output",
            Refusal::Licence => "the licensed process is not below the number of processes",
            Refusal::ForeignEntry => "a process that is not licensed puts an entry",
        })
    }
}

impl Error for Refusal {}

#[cfg(test)]
mod tests {
    use super::Refusal;

    #[test]
    fn numbers() {
        let numbers = Refusal::ALL.map(Refusal::number);
        assert_eq!(numbers, [1, 2, 3, 4, 5, 6, 7, 8, 10, 13, 14]);
    }
}
