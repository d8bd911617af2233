//! How a command ends.

use std::fmt::Display;
use std::process::ExitCode;

/// The exit status.
#[derive(Clone, Copy, PartialEq, Eq, Debug)]
pub enum Status {
    /// Done, or the logs are the same.
    Done = 0,
    /// The logs differ.
    Differs = 1,
    /// A mistake in the command line, in a file or in a text, or an output that cannot be written.
    Mistake = 2,
    /// A library refused the list, the price sheet or a number of the command line.
    Refused = 3,
}

impl From<Status> for ExitCode {
    fn from(status: Status) -> ExitCode {
        ExitCode::from(status as u8)
    }
}

/// A command that did not do what it should, and what is said of it on standard error.
#[derive(Clone, PartialEq, Eq, Debug)]
pub struct Failure {
    pub status: Status,
    pub message: String,
}

impl Failure {
    pub fn mistake(message: impl Display) -> Failure {
        Failure {
            status: Status::Mistake,
            message: format!("otq: {message}"),
        }
    }

    /// This failure, which counts for more, and another that is told after it if it is not the same.
    pub fn and(mut self, other: &Failure) -> Failure {
        if *other != self {
            self.message += &format!("\n{}", other.message);
        }
        self
    }

    /// A mistake in a file.
    pub fn of(name: impl Display, error: impl Display) -> Failure {
        Failure::mistake(format!("{name}: {error}"))
    }
}
