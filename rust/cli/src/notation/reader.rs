//! Text to records, a line at a time.

use super::text::{expected, number, Mistake, Text};
use super::{Heading, Line, Record, MOST};
use crate::words::decimal;
use otq::{Act, Step};
use std::io::BufRead;

/// A text that is read line by line, and what its heading said so far.
///
/// ```
/// use cli::notation::{Line, Mistake, Reader};
/// let mut reader = Reader::new("take by 1\nput by 1\n".as_bytes());
/// let record = [1, 2, 0, 0, 0, 0, 0, 0];
/// assert_eq!(reader.next_line().unwrap(), Some((1, Line { record, count: 1 })));
/// let mistake = reader.next_line().unwrap_err();
/// assert_eq!(mistake.to_string(), "2: expected `put VALUE by PROCESS`, found `put by 1`");
/// ```
pub struct Reader<T> {
    text: Text<T>,
    heading: Heading,
    /// The first word of each line of the heading, and its number.
    said: Vec<(String, usize)>,
    /// Whether there was a record.
    begun: bool,
}

impl<T: BufRead> Reader<T> {
    pub fn new(text: T) -> Reader<T> {
        Reader {
            text: Text::new(text),
            heading: Heading::default(),
            said: Vec::new(),
            begun: false,
        }
    }

    /// What the heading says; all of it once there was a record or the text has ended.
    pub fn heading(&self) -> Heading {
        self.heading
    }

    /// The first word of each line of the heading so far, and its number.
    pub fn said(self) -> Vec<(String, usize)> {
        self.said
    }

    /// The next line that says records, with its number; `None` at the end of the text.
    pub fn next_line(&mut self) -> Result<Option<(usize, Line)>, Mistake> {
        while let Some(said) = self.text.next_line()? {
            let words: Vec<&str> = said.split_whitespace().collect();
            let read = self.read_line(&words);
            if let Some(line) = read.map_err(|message| self.text.mistake(message))? {
                self.begun = true;
                return Ok(Some((self.text.line(), line)));
            }
        }
        Ok(None)
    }

    /// The records that the words of a line say; `None` for one of the heading.
    fn read_line(&mut self, words: &[&str]) -> Result<Option<Line>, String> {
        let first = words[0];
        match slot(&mut self.heading, first) {
            None => read_record(words).map(Some),
            Some(_) if self.begun => Err(format!("expected `{first}` before the first record")),
            Some(slot) => {
                read_heading(slot, words)?;
                self.said.push((first.to_string(), self.text.line()));
                Ok(None)
            }
        }
    }
}

/// Where a line of the heading with this first word is kept, and the largest number that it has.
fn slot<'a>(heading: &'a mut Heading, word: &str) -> Option<(&'a mut Option<u32>, u32)> {
    match word {
        "processes" => Some((&mut heading.processes, u32::MAX)),
        "operations" => Some((&mut heading.operations, u32::MAX)),
        "answers" => Some((&mut heading.answers, MOST)),
        "table" => Some((&mut heading.table, MOST)),
        _ => None,
    }
}

fn read_heading((slot, most): (&mut Option<u32>, u32), words: &[&str]) -> Result<(), String> {
    let [name, word] = words else {
        return Err(expected(&format!("`{} NUMBER`", words[0]), words));
    };
    if slot.is_some() {
        return Err(format!("expected `{name}` once, found it again"));
    }
    *slot = Some(number("a number", word, most)?);
    Ok(())
}

/// The record that a line says, and how often.
fn read_record(words: &[&str]) -> Result<Line, String> {
    let (by, act, count) = match *words {
        ["put", value, "by", by] => (by, Act::Put(number("a value", value, u32::MAX)?), 1),
        ["take", "by", by] => (by, Act::Take, 1),
        ["step", by] => (by, Act::Step, 1),
        ["step", by, count] => (by, Act::Step, times(count)?),
        ["raw", ref bytes @ ..] if bytes.len() == Step::BYTES => {
            let record = raw(bytes)?;
            return Ok(Line { record, count: 1 });
        }
        _ => return Err(expected(form(words[0]), words)),
    };
    let process = number("a process", by, u32::from(u8::MAX))? as u8;
    let record = Step { process, act }.into();
    Ok(Line { record, count })
}

/// How a line with this first word goes on.
fn form(word: &str) -> &str {
    match word {
        "put" => "`put VALUE by PROCESS`",
        "take" => "`take by PROCESS`",
        "step" => "`step PROCESS` or `step PROCESS xCOUNT`",
        "raw" => "`raw` and 8 bytes, each as two hexadecimal digits",
        _ => "put, take, step, raw, processes, operations, answers or table",
    }
}

/// The count of steps, written after an x.
fn times(word: &str) -> Result<u32, String> {
    let count = word.strip_prefix('x').and_then(decimal);
    let count = count.filter(|count| (1..=MOST).contains(count));
    count.ok_or_else(|| expected(&format!("a count from x1 to x{MOST}"), &[word]))
}

/// Bytes of two digits each, none of them a sign.
fn raw(words: &[&str]) -> Result<Record, String> {
    let mut record = Record::default();
    for (word, place) in words.iter().zip(&mut record) {
        let digits = word.len() == 2 && word.bytes().all(|byte| byte.is_ascii_hexdigit());
        let byte = u8::from_str_radix(word, 16).ok().filter(|_| digits);
        *place = byte.ok_or_else(|| expected("a byte from 00 to ff", &[word]))?;
    }
    Ok(record)
}
