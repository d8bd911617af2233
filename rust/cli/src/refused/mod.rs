//! What is told of a refusal: number and meaning, the record, and what may have caused it.

mod advice;
mod lists;
mod sheets;

pub use advice::{explained, explained_of_sheet};

use crate::failure::{Failure, Status};
use crate::json::Json;
use crate::list::List;
use crate::notation::{band_line, Record};
use crate::sheet::Sheet;
use crate::words::{hex, step};
use dictionary::price;
use otq::Refusal;
use std::fmt::{self, Debug, Display};

/// A refusal as it is told.
pub struct Reason {
    pub number: u32,
    pub meaning: String,
    name: String,
}

impl Reason {
    fn new(number: u32, refusal: impl Debug + Display) -> Reason {
        Reason {
            number,
            meaning: refusal.to_string(),
            name: format!("{refusal:?}"),
        }
    }

    fn of_queue(refusal: Refusal) -> Reason {
        Reason::new(refusal.number(), refusal)
    }

    fn of_desk(refusal: dictionary::Refusal) -> Reason {
        Reason::new(refusal.number(), refusal)
    }

    fn of_sheet(refusal: price::Refusal) -> Reason {
        Reason::new(refusal.number(), refusal)
    }
}

/// A record of a list, or a band of a price sheet. Shown, it is told by its number, where it stands, and
/// what it says.
pub struct Place {
    what: &'static str,
    /// From 0.
    index: usize,
    bytes: Record,
    words: String,
    /// The name of the file, and of a text the line that says it.
    file: String,
    line: Option<usize>,
}

impl Place {
    pub fn of_record(list: &List, index: usize) -> Place {
        let bytes = list.records()[index];
        Place {
            what: "record",
            index,
            bytes,
            words: step(bytes),
            file: list.name.to_string(),
            line: list.line_of(index),
        }
    }

    fn of_band(sheet: &Sheet, index: usize) -> Place {
        let band = sheet.bands().nth(index).expect("a band that is kept");
        Place {
            what: "band",
            index,
            bytes: band.into(),
            words: band_line(band),
            file: sheet.name.to_string(),
            line: sheet.line_of(index),
        }
    }

    fn number(&self) -> usize {
        self.index + 1
    }

    fn byte(&self) -> usize {
        self.index * self.bytes.len()
    }
}

impl Display for Place {
    fn fmt(&self, f: &mut fmt::Formatter) -> fmt::Result {
        let (what, number, at) = (self.what, self.number(), self.byte());
        let (words, bytes, file) = (&self.words, hex(&self.bytes), &self.file);
        write!(f, "{what} {number}, byte {at}: {words}")?;
        // Words that no line of the notation has are the bytes themselves.
        if !words.ends_with(&bytes) {
            write!(f, " ({bytes})")?;
        }
        write!(f, ", {file}")?;
        match self.line {
            Some(line) => write!(f, ":{line}"),
            None => Ok(()),
        }
    }
}

/// A refused call.
pub struct Refused {
    reason: Reason,
    /// The refused record or band; `None` if the call was turned down before them.
    pub record: Option<Place>,
    /// How the refused record meets its process, or what the call was given.
    standing: Option<String>,
    cause: Option<String>,
}

impl Refused {
    pub fn failure(&self) -> Failure {
        let Reason {
            number, meaning, ..
        } = &self.reason;
        let mut lines = vec![format!("otq: refused with {number}: {meaning}")];
        lines.extend(self.record.iter().map(|place| format!("  {place}")));
        lines.extend(self.standing.iter().map(|standing| format!("  {standing}")));
        lines.extend(
            self.cause
                .iter()
                .map(|cause| format!("  likely cause: {cause}")),
        );
        lines.push(format!("  `otq explain {number}` says what to do"));
        Failure {
            status: Status::Refused,
            message: lines.join("\n"),
        }
    }

    pub fn json(&self) -> Json {
        let record = self.record.as_ref();
        let line = record.and_then(|place| place.line);
        let text = |text: Option<&String>| Json::or_null(text.map(Json::text));
        Json::object([
            ("number", Json::Number(self.reason.number.into())),
            ("name", Json::text(&self.reason.name)),
            ("meaning", Json::text(&self.reason.meaning)),
            ("record", Json::number(record.map(Place::number))),
            ("byte", Json::number(record.map(Place::byte))),
            ("line", Json::number(line)),
            ("words", text(record.map(|place| &place.words))),
            ("standing", text(self.standing.as_ref())),
            ("likely_cause", text(self.cause.as_ref())),
        ])
    }
}

#[cfg(test)]
mod tests {
    use super::Reason;
    use dictionary::Refusal;

    /// A refusal that the desk shares with the queue is told in the queue's words.
    #[test]
    fn the_desk_has_the_words_of_the_queue() {
        let own = [
            Refusal::OutputShort,
            Refusal::Licence,
            Refusal::ForeignEntry,
        ];
        for refusal in Refusal::ALL {
            let desk = Reason::of_desk(refusal);
            let queue = otq::Refusal::from_number(refusal.number()).map(Reason::of_queue);
            let told = |reason: Reason| (reason.meaning, reason.name);
            let is_shared = queue.map(told) == Some(told(desk));
            assert_eq!(is_shared, !own.contains(&refusal), "{refusal:?}");
        }
    }
}
