//! `otq trace`.

use crate::arguments::{Choice, Given};
use crate::failure::{Failure, Status};
use crate::list::List;
use crate::refused::Refused;
use crate::tool::Tool;
use crate::trace::{compare, Traced};
use crate::words::count;

pub const FROM: Choice = Choice {
    name: "--from",
    value: Some("N"),
    about: "the first record told, counted from 1",
};
pub const TO: Choice = Choice {
    name: "--to",
    value: Some("N"),
    about: "the last record told",
};

pub fn trace(tool: &mut Tool, given: &Given) -> Result<Status, Failure> {
    let list = List::read(tool, given)?;
    let run = list.run()?.run;
    let taken = run.taken as usize;
    let refused = Refused::of_run(&list, &run);
    if let Some(refused) = refused.as_ref().filter(|refused| refused.record.is_none()) {
        return Err(refused.failure());
    }
    let (from, to) = range(given, taken)?;
    tool.progress
        .say(format!("comparing both versions on {}", list.name));
    let every = if from <= to {
        compare(&list, from, to)?
    } else {
        1
    };
    tool.line(first_lines(from, to, every))?;
    let mut traced = Traced::start(&list)?;
    for number in 1..=to {
        let line = traced.next()?;
        if number >= from {
            tool.line(line)?;
        }
        if tool.closed() {
            return Ok(Status::Done);
        }
    }
    let asked_for = given.number(&TO)?.is_none_or(|to: usize| to > taken);
    let refused = refused.filter(|_| asked_for);
    refused.map_or(Ok(Status::Done), |refused| Err(refused.failure()))
}

/// The records to be told, from 1, of those that the library takes; none if it takes none.
fn range(given: &Given, taken: usize) -> Result<(usize, usize), Failure> {
    let from = given.number(&FROM)?.unwrap_or(1);
    let to = given.number(&TO)?.unwrap_or(taken);
    let told =
        || format!("--from {from} --to {to}: the first is from 1 on, and not above the last");
    if from == 0 || from > to && to != taken {
        return Err(Failure::mistake(told()));
    }
    if from > taken.max(1) {
        let taken = count(taken, "record");
        return Err(Failure::mistake(format!(
            "--from {from}: the library takes {taken}"
        )));
    }
    Ok((from, to.min(taken)))
}

/// Where the trace comes from, and what it was compared with.
fn first_lines(from: usize, to: usize, every: usize) -> String {
    let compared = match (from <= to, every) {
        (false, _) => "There was no record to compare.".to_string(),
        (true, every) => {
            let after = match every {
                1 => format!("each of records {from} to {to}"),
                every => format!("every {every} of records {from} to {to}, and the last,"),
            };
            format!("After {after} the proved library has the same table and answers.")
        }
    };
    format!("# By the Rust version of the rules, not by the proved library.\n# {compared}")
}
