//! What the notations share: lines, comments, numbers, and how a mistake is told.

use crate::words::{self, decimal};
use std::error::Error;
use std::fmt;
use std::io::{self, BufRead, Read};

/// The most bytes of a line, comment included.
const MOST_BYTES: usize = 10_000;

/// Why a text is not read to its end.
#[derive(Debug)]
pub enum Mistake {
    /// A line, from 1, that is not of the notation: what was expected and what was found.
    Line { line: usize, message: String },
    /// The text could not be read on.
    Read(io::Error),
}

impl fmt::Display for Mistake {
    fn fmt(&self, f: &mut fmt::Formatter) -> fmt::Result {
        match self {
            Mistake::Line { line, message } => write!(f, "{line}: {message}"),
            Mistake::Read(error) => write!(f, "{error}"),
        }
    }
}

impl Error for Mistake {}

/// A text that is read line by line.
pub struct Text<T> {
    text: T,
    /// The line that was read last, and its number.
    bytes: Vec<u8>,
    line: usize,
}

impl<T: BufRead> Text<T> {
    pub fn new(text: T) -> Text<T> {
        Text {
            text,
            bytes: Vec::new(),
            line: 0,
        }
    }

    /// What the next line that is not blank says before its comment; `None` at the end of the text.
    pub fn next_line(&mut self) -> Result<Option<String>, Mistake> {
        while self.read_bytes()? {
            let said = self.said();
            if !said.is_empty() {
                return Ok(Some(said));
            }
        }
        Ok(None)
    }

    /// The number of the line that was read last, from 1.
    pub fn line(&self) -> usize {
        self.line
    }

    /// A mistake in the line that was read last.
    pub fn mistake(&self, message: String) -> Mistake {
        let line = self.line;
        Mistake::Line { line, message }
    }

    /// Whether there is another line.
    fn read_bytes(&mut self) -> Result<bool, Mistake> {
        self.bytes.clear();
        let mut text = self.text.by_ref().take(MOST_BYTES as u64 + 1);
        let read = text.read_until(b'\n', &mut self.bytes);
        let found = read.map_err(Mistake::Read)? > 0;
        self.line += usize::from(found);
        // Else what an editor may show as lines of their own would all be part of a first comment.
        if self.bytes.trim_ascii_end().contains(&b'\r') {
            let message = "expected lines that end with LF or CR LF, found CR alone";
            return Err(self.mistake(message.to_string()));
        }
        match self.bytes.len() > MOST_BYTES {
            true => Err(self.mistake(format!("expected a line of at most {MOST_BYTES} bytes"))),
            false => Ok(found),
        }
    }

    /// The line without its comment. Bytes that are no text are looked at as a character that no line
    /// has, so that they may stand in comments and are told elsewhere.
    fn said(&self) -> String {
        let line = String::from_utf8_lossy(&self.bytes);
        let said = line.split('#').next().unwrap_or_default();
        // Some editors begin a text with a byte order mark.
        said.trim_start_matches('\u{feff}').trim().to_string()
    }
}

/// A word that is a number up to the most.
pub fn number(what: &str, word: &str, most: u32) -> Result<u32, String> {
    let number = decimal(word).filter(|&number| number <= most);
    number.ok_or_else(|| expected(&format!("{what} from 0 to {most}"), &[word]))
}

/// That other words were expected than were found.
pub fn expected(what: &str, found: &[&str]) -> String {
    words::expected(what, &found.join(" "))
}
