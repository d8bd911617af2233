//! The library part of `otq`: the text notations of exercises and of price sheets, and the commands.
//!
//! All that a command tells of a list is computed by the proved libraries, through `rust/otq` and
//! `rust/dictionary`, but for two things, which are compared with them before: the trace is the Rust
//! version's, and a plain queue tells the put that a term of the desk came from. Each amount of a bill is
//! the price sheet's; which deliveries a line of it is of, and which band is refused, is read off the bands.

mod arguments;
mod columns;
mod commands;
mod differences;
mod failure;
mod fields;
mod files;
mod json;
mod list;
pub mod notation;
mod progress;
mod refused;
mod sheet;
mod tool;
mod trace;
mod words;

use failure::{Failure, Status};
use std::ffi::OsString;
use std::process::ExitCode;
use tool::Tool;

/// Does what the words of a command line say, and gives the exit status.
pub fn main(words: Vec<OsString>) -> ExitCode {
    match call(words) {
        Ok(status) => status.into(),
        Err(Failure { status, message }) => {
            tool::tell(&message);
            status.into()
        }
    }
}

/// What a command did; what it writes stands before what is said of its failure.
fn call(words: Vec<OsString>) -> Result<Status, Failure> {
    let mut tool = Tool::new()?;
    let done = commands::call(&mut tool, words);
    match (done, tool.finish()) {
        (done, Ok(())) => done,
        (Ok(_), Err(unwritten)) => Err(unwritten),
        (Err(failure), Err(unwritten)) => Err(failure.and(&unwritten)),
    }
}
