//! Why a call or a record is turned down.

use std::error::Error;
use std::fmt;

/// Why a call or a record is turned down; the discriminants are the paper's numbers. Shown, it is a
/// line of text, the same as `otq_text.h` has for C.
///
/// It is the first test that fails, in this order: of a call 1, 2, 3, 4, of [`check_log`] then 11;
/// record by record of a begin 5, 8, 6 and of a step 5, 7, of [`run`] then 9; of [`list_order`] at
/// the end 10. So a begin inside the last of l operations is [`BegunAll`](Refusal::BegunAll). Of
/// [`forecast`] 1, 2, 4, then record by record 5, 12, 8.
///
/// ```
/// use otq::Refusal;
/// let put = [0, 1, 0, 0, 5, 0, 0, 0];
/// let two_begins = [put, put].concat();
/// let refusal = |l| otq::play(2, l, &two_begins).run.refusal;
/// assert_eq!(refusal(1), Some(Refusal::BegunAll));
/// assert_eq!(refusal(2), Some(Refusal::BeginWhileBusy));
/// assert_eq!(otq::forecast(2, 1, &two_begins), Err(Refusal::BegunAll));
/// ```
///
/// [`check_log`]: crate::check_log
/// [`run`]: crate::run
/// [`list_order`]: crate::list_order
/// [`forecast`]: crate::forecast
#[derive(Clone, Copy, PartialEq, Eq, Hash, Debug)]
#[repr(u32)]
pub enum Refusal {
    /// p is not 2, 4 or 8.
    Processes = 1,
    /// l is not 1 to 500.
    Operations = 2,
    /// The work table is shorter than the words needed.
    TableShort = 3,
    /// The record bytes are not a multiple of 8.
    RecordsTorn = 4,
    /// A process not below p, a kind above 2, or a byte that must be zero.
    IllFormed = 5,
    /// A begin while the process is not idle.
    BeginWhileBusy = 6,
    /// A step while the process is idle.
    StepWhileIdle = 7,
    /// A begin by a process that has begun l.
    BegunAll = 8,
    /// A Q with fewer than 16 answer bytes left.
    AnswersFull = 9,
    /// The order list is longer than the output.
    OutputShort = 10,
    /// The log bytes are not a multiple of 16.
    LogTorn = 11,
    /// A step record where begins alone may stand.
    StepAmongBegins = 12,
}

impl Refusal {
    /// All of them, in the order of their numbers.
    pub const ALL: [Refusal; 12] = [
        Refusal::Processes,
        Refusal::Operations,
        Refusal::TableShort,
        Refusal::RecordsTorn,
        Refusal::IllFormed,
        Refusal::BeginWhileBusy,
        Refusal::StepWhileIdle,
        Refusal::BegunAll,
        Refusal::AnswersFull,
        Refusal::OutputShort,
        Refusal::LogTorn,
        Refusal::StepAmongBegins,
    ];

    /// The paper's number.
    ///
    /// ```
    /// assert_eq!(otq::Refusal::Processes.number(), 1);
    /// assert_eq!(otq::Refusal::StepAmongBegins.number(), 12);
    /// ```
    pub fn number(self) -> u32 {
        self as u32
    }

    /// The refusal with this number; 0 is none, and those past the last are none.
    ///
    /// ```
    /// assert_eq!(otq::Refusal::from_number(12), Some(otq::Refusal::StepAmongBegins));
    /// assert_eq!(otq::Refusal::from_number(0), None);
    /// ```
    pub fn from_number(number: u32) -> Option<Refusal> {
        Self::ALL
            .into_iter()
            .find(|refusal| refusal.number() == number)
    }
}

impl fmt::Display for Refusal {
    fn fmt(&self, f: &mut fmt::Formatter) -> fmt::Result {
        f.write_str(match self {
            Refusal::Processes => "the number of processes is not 2, 4 or 8",
            Refusal::Operations => "the most operations of a process are not 1 to 500",
            Refusal::TableShort => "the work table is too short",
            Refusal::RecordsTorn => "the record bytes are not a multiple of 8",
            Refusal::IllFormed => "a record is ill-formed",
            Refusal::BeginWhileBusy => "a process begins an operation while it is inside another",
            Refusal::StepWhileIdle => "a process steps while it is inside no operation",
            Refusal::BegunAll => "a process begins more operations than it may",
            Refusal::AnswersFull => "an operation ends with fewer than 16 answer bytes left",
            Refusal::OutputShort => "the order list is longer than the output",
            Refusal::LogTorn => "the log bytes are not a multiple of 16",
            Refusal::StepAmongBegins => "a step record stands among begins",
        })
    }
}

impl Error for Refusal {}

#[cfg(test)]
mod tests {
    use super::Refusal;

    #[test]
    fn numbers_follow_each_other() {
        let numbers = Refusal::ALL.map(Refusal::number);
        assert!(numbers.into_iter().eq(1..=12));
        assert_eq!(Refusal::from_number(13), None);
    }
}
