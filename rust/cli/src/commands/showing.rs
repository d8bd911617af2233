//! `otq show`.

use crate::arguments::{Choice, Given};
use crate::failure::{Failure, Status};
use crate::fields::{Sort, ANSWER, ORDER, STEP};
use crate::files::{records, Name};
use crate::tool::Tool;
use crate::words::{self, hex};

pub const AS: Choice = Choice {
    name: "--as",
    value: Some("WHAT"),
    about: "what the file holds: steps, log or order",
};

pub fn show(tool: &mut Tool, given: &Given) -> Result<Status, Failure> {
    let name = Name::new(&given.files[0]);
    let what = given.value("--as").and_then(|what| what.to_str());
    tool.reading(&name);
    match what {
        Some("steps") => show_as(tool, &name, &STEP, words::step),
        Some("log") => show_as(tool, &name, &ANSWER, words::answer),
        Some("order") => show_as(tool, &name, &ORDER, words::order),
        _ => Err(Failure::mistake("give --as steps, --as log or --as order")),
    }
}

/// A line a whole record, then where the file is torn.
fn show_as<const N: usize>(
    tool: &mut Tool,
    name: &Name,
    sort: &Sort,
    line: fn([u8; N]) -> String,
) -> Result<Status, Failure> {
    let bytes = records(name, &format!("{}s", sort.name))?;
    let (whole, torn) = bytes.as_chunks();
    for (index, &record) in whole.iter().enumerate() {
        tool.line(format!("{} {}", index + 1, line(record)))?;
        if tool.closed() {
            break;
        }
    }
    match torn {
        [] => Ok(Status::Done),
        _ => {
            let place = words::torn(bytes.len(), N, "record");
            Err(Failure::of(name, format!("torn: {place}: {}", hex(torn))))
        }
    }
}
