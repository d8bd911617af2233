//! Why a call or a record is turned down, with the paper's numbers.

#[derive(Clone, Copy, PartialEq, Eq, Hash, Debug)]
pub enum Refusal {
    /// p is not 2, 4 or 8.
    Processes,
    /// L is not 1 to 500.
    Operations,
    /// The work table is shorter than the words needed.
    TableShort,
    /// The record bytes are not a multiple of 8.
    RecordsTorn,
    /// A process not below p, a kind above 2, or a byte that must be zero.
    IllFormed,
    /// A begin while the process is not idle.
    BeginWhileBusy,
    /// A step while the process is idle.
    StepWhileIdle,
    /// A begin by a process that has begun L.
    BegunAll,
    /// A Q with fewer than 16 answer bytes left.
    AnswersFull,
    /// The order list is longer than the output.
    OutputShort,
    /// The log bytes are not a multiple of 16.
    LogTorn,
    /// A record of kind 0 among begins.
    StepAmongBegins,
}

/// The paper's number; 0 stands for no refusal.
pub fn number(refusal: Option<Refusal>) -> u32 {
    match refusal {
        None => 0,
        Some(Refusal::Processes) => 1,
        Some(Refusal::Operations) => 2,
        Some(Refusal::TableShort) => 3,
        Some(Refusal::RecordsTorn) => 4,
        Some(Refusal::IllFormed) => 5,
        Some(Refusal::BeginWhileBusy) => 6,
        Some(Refusal::StepWhileIdle) => 7,
        Some(Refusal::BegunAll) => 8,
        Some(Refusal::AnswersFull) => 9,
        Some(Refusal::OutputShort) => 10,
        Some(Refusal::LogTorn) => 11,
        Some(Refusal::StepAmongBegins) => 12,
    }
}
