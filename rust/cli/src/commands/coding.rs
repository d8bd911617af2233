//! `otq encode` and `otq decode`.

use super::{L, P};
use crate::arguments::{Choice, Given};
use crate::failure::{Failure, Status};
use crate::files::{records, Holds, Name, Source};
use crate::list::text_mistake;
use crate::notation::{lines, Heading, Reader, MOST_PLAYED};
use crate::tool::Tool;
use otq::Step;

pub const PRINT: Choice = Choice {
    name: "--print",
    value: None,
    about: "only if the printing program plays by the text's heading",
};

/// Records are held back until there are more than in any list that is played whole: the records before a
/// mistake must not be taken for the list.
pub fn encode(tool: &mut Tool, given: &Given) -> Result<Status, Failure> {
    let name = Name::new(&given.files[0]);
    tool.reading(&name);
    let source = Source::open(&name)?;
    if source.holds == Holds::Records {
        let message = "it holds binary records, and not text; `otq decode` makes text of them";
        let spoilt = source.spoilt_text();
        return Err(Failure::of(name, spoilt.as_deref().unwrap_or(message)));
    }
    let mut reader = Reader::new(source.text());
    let mut held = Vec::new();
    loop {
        let line = reader
            .next_line()
            .map_err(|mistake| text_mistake(&name, mistake))?;
        if given.has("--print") {
            for_printing_program(&name, reader.heading())?;
        }
        if let Some((_, line)) = line {
            held.extend(line.record.repeat(line.count as usize));
        }
        if line.is_none() || held.len() > Step::BYTES * MOST_PLAYED {
            tool.write(&held)?;
            held.clear();
        }
        if line.is_none() || tool.closed() {
            return Ok(Status::Done);
        }
    }
}

/// Records do not hold the heading, so that with another one the printing program would play
/// another exercise.
fn for_printing_program(name: &Name, heading: Heading) -> Result<(), Failure> {
    match heading.is_printing_program() {
        true => Ok(()),
        false => Err(Failure::of(
            name,
            "the printing program has processes 4, operations 24 and buffers to match; `otq run` \
             plays by other headings",
        )),
    }
}

pub fn decode(tool: &mut Tool, given: &Given) -> Result<Status, Failure> {
    let name = Name::new(&given.files[0]);
    let (Some(p), Some(l)) = (given.number::<u32>(&P)?, given.number::<u32>(&L)?) else {
        return Err(Failure::mistake(
            "records do not say p and L: give -p P and -L L",
        ));
    };
    tool.reading(&name);
    let bytes = records(&name, "binary records; it may be played as it is")?;
    let (whole, torn) = bytes.as_chunks();
    if !torn.is_empty() {
        let (at, bytes, size) = (Step::BYTES * whole.len(), torn.len(), Step::BYTES);
        let message = format!(
            "byte {at}: expected a record of {size} bytes, found {bytes}; `otq show --as steps` \
             shows the whole records"
        );
        return Err(Failure::of(name, message));
    }
    tool.line(format!("processes {p}\noperations {l}"))?;
    for line in lines(whole) {
        tool.line(line)?;
        if tool.closed() {
            break;
        }
    }
    Ok(Status::Done)
}
