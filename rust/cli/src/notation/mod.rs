//! Text notations: for lists of step records, here, and for [price sheets](PriceSheet).
//!
//! A list has a line a record or a run of steps:
//!
//! ```text
//! # What stands after a hash is a comment; blank lines mean nothing.
//! processes 2     # p, 4 if it is not said
//! operations 24   # L, 24 if it is not said
//! answers 32      # answer bytes lent, as many as are needed if it is not said
//! table 693       # table words lent, as many as are needed if it is not said
//! put 7 by 0      # process 0 begins a put of 7
//! step 0 x17      # and does 17 steps
//! take by 1
//! step 1          # one step
//! raw 00 03 00 00 00 00 00 00   # the 8 bytes of a record that no other line can say
//! ```
//!
//! The lines of the heading stand before the first record, in any order, each at most once. A
//! process is any number that a record has room for, and a heading may say anything: what is turned
//! down by the rules is the library's to say, when it plays.
//!
//! [`Reader`] makes records of a text and [`lines`] a text of records. Reading what was written gives
//! the same records again; writing what was read gives the text in its one canonical form, without
//! heading and comments, which records do not hold.

mod lines;
mod reader;
mod sheet;
mod text;

pub use lines::{lines, Line};
pub use reader::Reader;
pub use sheet::{band_line, PriceSheet};
pub use text::Mistake;

use otq::Step;
use std::io::BufRead;

/// The most steps that one line says, and the most bytes and words that a heading lends. It is more
/// than any buffer that the library needs, and keeps a mistyped number from filling the memory.
pub const MOST: u32 = 1_000_000;

/// The most records of a text that are kept to be played: more than any list that the library takes
/// whole, so that it turns down a longer one at a record that is kept.
pub const MOST_PLAYED: usize = 1_000_000;

/// p and L of the printing program, and of a text whose heading does not say them.
const PRINTING: (u32, u32) = (4, 24);

/// The bytes of a step record.
pub type Record = [u8; Step::BYTES];

/// What the lines before the first record say; `None` where there is no such line.
#[derive(Clone, Copy, Default, PartialEq, Eq, Debug)]
pub struct Heading {
    pub processes: Option<u32>,
    pub operations: Option<u32>,
    pub answers: Option<u32>,
    pub table: Option<u32>,
}

impl Heading {
    /// The number of processes.
    pub fn p(self) -> u32 {
        self.processes.unwrap_or(PRINTING.0)
    }

    /// The most operations of one process.
    pub fn l(self) -> u32 {
        self.operations.unwrap_or(PRINTING.1)
    }

    /// Words of the work table that the library is lent; none are needed where p or L is turned down.
    pub fn table_words(self) -> usize {
        lent(self.table, otq::table_words(self.p(), self.l()))
    }

    /// Bytes that the library is lent for answers.
    pub fn answer_bytes(self) -> usize {
        lent(self.answers, otq::most_answer_bytes(self.p(), self.l()))
    }

    /// Whether the printing program, whose p, L and buffers are fixed, plays by this heading.
    pub fn is_printing_program(self) -> bool {
        (self.p(), self.l()) == PRINTING && self.answers.is_none() && self.table.is_none()
    }
}

/// What the heading says, or what is needed.
fn lent(said: Option<u32>, needed: Option<usize>) -> usize {
    said.map(|length| length as usize).or(needed).unwrap_or(0)
}

/// A text to be played: its heading, its records, and the lines that say them.
///
/// ```
/// use cli::notation::Exercise;
/// let text = "processes 2\nput 7 by 1  # a comment\nstep 1 x2\n";
/// let exercise = Exercise::read(text.as_bytes()).unwrap();
/// assert_eq!(exercise.heading.p(), 2);
/// let put = [1, 1, 0, 0, 7, 0, 0, 0];
/// let step = [1, 0, 0, 0, 0, 0, 0, 0];
/// assert_eq!(exercise.records, [put, step, step].concat());
/// assert_eq!(exercise.line_of(0), Some(2));
/// assert_eq!(exercise.line_of(2), Some(3));
/// ```
#[derive(Clone, Default, PartialEq, Eq, Debug)]
pub struct Exercise {
    pub heading: Heading,
    pub records: Vec<u8>,
    /// Whether there are records past [`MOST_PLAYED`], which are read but not kept.
    pub longer: bool,
    /// The first word of each line of the heading, and its number.
    said: Vec<(String, usize)>,
    /// For each line with records its first record, from 0, and its number.
    begins: Vec<(usize, usize)>,
}

impl Exercise {
    /// Reads a text to its end.
    pub fn read(text: impl BufRead) -> Result<Exercise, Mistake> {
        let mut reader = Reader::new(text);
        let mut exercise = Exercise::default();
        while let Some((line, Line { record, count })) = reader.next_line()? {
            exercise.keep(line, record, count as usize);
        }
        exercise.heading = reader.heading();
        exercise.said = reader.said();
        Ok(exercise)
    }

    fn keep(&mut self, line: usize, record: Record, count: usize) {
        let kept = self.records.len() / Step::BYTES;
        let more = count.min(MOST_PLAYED - kept);
        self.longer |= more < count;
        if more > 0 {
            self.begins.push((kept, line));
            self.records.extend(record.repeat(more));
        }
    }

    /// Records that no lines say.
    pub fn of_records(heading: Heading, records: Vec<u8>) -> Exercise {
        Exercise {
            heading,
            records,
            ..Exercise::default()
        }
    }

    /// The line of the heading with this first word.
    pub fn heading_line(&self, word: &str) -> Option<usize> {
        let said = self.said.iter().find(|(first, _)| first == word);
        said.map(|(_, line)| *line)
    }

    /// The line that says a record, from 0; `None` if there is none.
    pub fn line_of(&self, record: usize) -> Option<usize> {
        let after = self.begins.partition_point(|&(first, _)| first <= record);
        let kept = record < self.records.len() / Step::BYTES;
        let (_, line) = self.begins[..after].last().filter(|_| kept)?;
        Some(*line)
    }
}
