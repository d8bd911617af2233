//! Files that a command reads and writes.

use crate::failure::Failure;
use crate::words::{shown, thousands};
use std::ffi::OsStr;
use std::fmt;
use std::fs::{self, File, Metadata};
use std::io::{self, stdin, BufRead, BufReader, Cursor, Read, Write};
use std::os::fd::AsFd;
use std::os::unix::fs::MetadataExt;
use std::path::{Path, PathBuf};

/// Bytes at the beginning of a file by which text is told from records.
const LOOKED_AT: u64 = 8192;

/// Letters at the beginning by which a text is known that has other bytes too.
const LETTERS: usize = 8;

/// The most bytes of a file that are read: many times the longest list that the library takes.
const MOST_BYTES: u64 = 1_000_000_000;

/// A file by its name, or standard input.
#[derive(Clone, PartialEq, Eq, Debug)]
pub enum Name {
    Input,
    Path(PathBuf),
}

impl Name {
    /// `-` is standard input.
    pub fn new(word: &OsStr) -> Name {
        match word.to_str() {
            Some("-") => Name::Input,
            _ => Name::Path(word.into()),
        }
    }

    /// The file's number in its file system, which two names of one file share; `None` of what has no content
    /// of its own to lose, as a device or a pipe.
    fn node(&self) -> Option<(u64, u64)> {
        let path = match self {
            Name::Input => Path::new("/dev/stdin"),
            Name::Path(path) => path,
        };
        let data = fs::metadata(path).ok().filter(Metadata::is_file)?;
        Some((data.dev(), data.ino()))
    }
}

impl fmt::Display for Name {
    fn fmt(&self, f: &mut fmt::Formatter) -> fmt::Result {
        match self {
            Name::Input => f.write_str("standard input"),
            Name::Path(path) => f.write_str(&shown(path.as_os_str())),
        }
    }
}

/// What a file seems to hold; an empty one holds either.
#[derive(Clone, Copy, PartialEq, Eq, Debug)]
pub enum Holds {
    Nothing,
    Text,
    Records,
}

/// A file that is open to be read.
pub struct Source {
    pub name: Name,
    pub holds: Holds,
    /// Its beginning, which was looked at, and what follows.
    beginning: Vec<u8>,
    rest: Limited,
    /// How long it is, where that is known.
    length: u64,
}

impl Source {
    pub fn open(name: &Name) -> Result<Source, Failure> {
        Source::look_at(name).map_err(|error| Failure::of(name, error))
    }

    fn look_at(name: &Name) -> io::Result<Source> {
        let (file, length) = match name {
            // As a file, of which an error of reading is told; of `Stdin` it may be taken for the end.
            Name::Input => (File::from(stdin().as_fd().try_clone_to_owned()?), 0),
            Name::Path(path) => {
                let file = File::open(path)?;
                let length = file.metadata()?.len();
                (file, length)
            }
        };
        if length > MOST_BYTES {
            return Err(too_long());
        }
        let mut rest = Limited {
            file,
            left: MOST_BYTES,
        };
        let mut beginning = Vec::new();
        let mut looked_at = rest.by_ref().take(LOOKED_AT);
        looked_at.read_to_end(&mut beginning)?;
        Ok(Source {
            name: name.clone(),
            holds: holds(&beginning),
            beginning,
            rest,
            length,
        })
    }

    /// All of its bytes, in one piece and without a copy.
    pub fn bytes(mut self) -> Result<Vec<u8>, Failure> {
        let mut bytes = self.beginning;
        let more = self.length.saturating_sub(bytes.len() as u64);
        let reserved = bytes.try_reserve_exact(more as usize);
        reserved.map_err(|error| Failure::of(&self.name, error))?;
        let read = self.rest.read_to_end(&mut bytes);
        read.map_err(|error| Failure::of(&self.name, error))?;
        Ok(bytes)
    }

    /// What is told of a text that is taken for records.
    pub fn spoilt_text(&self) -> Option<String> {
        spoilt_text(&self.beginning)
    }

    /// Its text, which is not kept.
    pub fn text(self) -> impl BufRead {
        BufReader::with_capacity(1 << 16, Cursor::new(self.beginning).chain(self.rest))
    }
}

/// A file that is read up to the most bytes, and fails if it has more: an input may have no end.
struct Limited {
    file: File,
    left: u64,
}

impl Read for Limited {
    fn read(&mut self, buffer: &mut [u8]) -> io::Result<usize> {
        // One byte more tells whether the file ends.
        let most = buffer.len().min(self.left as usize + 1);
        let read = self.file.read(&mut buffer[..most])?;
        let left = self.left.checked_sub(read as u64);
        self.left = left.ok_or_else(too_long)?;
        Ok(read)
    }
}

fn too_long() -> io::Error {
    let most = thousands(MOST_BYTES);
    io::Error::other(format!(
        "it has more than {most} bytes, the most that are read"
    ))
}

/// Every well-formed record has zero bytes or small numbers near its beginning, which no text has.
fn holds(beginning: &[u8]) -> Holds {
    match (beginning, no_text(beginning)) {
        ([], _) => Holds::Nothing,
        (_, None) => Holds::Text,
        (_, Some(_)) => Holds::Records,
    }
}

/// The place of the first byte that no text has. Text has no control characters but tabs and line ends. A byte
/// above 127 may stand in a comment, but begins no text, unless it is of a byte order mark.
fn no_text(beginning: &[u8]) -> Option<usize> {
    let control = |byte: &u8| byte.is_ascii_control() && !b"\t\n\x0c\r".contains(byte);
    let begins = |first: &u8| first.is_ascii() || beginning.starts_with(b"\xef\xbb\xbf");
    match beginning.first() {
        Some(first) if !begins(first) => Some(0),
        _ => beginning.iter().position(control),
    }
}

/// What is told of bytes that begin as a text does, zero bytes and a byte order mark aside, and have a byte
/// that no text has: a text of 16 bits a character, or with a control character. No proper record of a list,
/// a log or an order begins so.
pub fn spoilt_text(bytes: &[u8]) -> Option<String> {
    let beginning = &bytes[..bytes.len().min(LOOKED_AT as usize)];
    let at = no_text(beginning)?;
    let letters = beginning
        .iter()
        .filter(|byte| !matches!(byte, 0 | 0xfe | 0xff));
    let letters: Vec<u8> = letters.take(LETTERS).copied().collect();
    let is_letter = |byte: &u8| byte.is_ascii_graphic() || byte.is_ascii_whitespace();
    let begins = letters.len() == LETTERS && letters.iter().all(is_letter);
    begins.then(|| {
        let byte = bytes[at];
        format!("it seems to be a text, but byte {at} is {byte:02x}, which no text has: save it as plain text (UTF-8)")
    })
}

/// The records of a file that must not be text.
pub fn records(name: &Name, what: &str) -> Result<Vec<u8>, Failure> {
    let source = Source::open(name)?;
    match source.holds {
        Holds::Text => Err(Failure::of(name, format!("it holds text, and not {what}"))),
        Holds::Records | Holds::Nothing => source.bytes(),
    }
}

/// Writes a file that is none of those that were read.
pub fn write(path: &OsStr, bytes: &[u8], read: &[&Name]) -> Result<(), Failure> {
    let name = Name::new(path);
    if name == Name::Input {
        return Err(Failure::mistake(
            "a file to write has a name; `-` is standard input",
        ));
    }
    let node = name.node();
    if node.is_some() && read.iter().any(|read| read.node() == node) {
        return Err(Failure::of(name, "it was read, and is not written over"));
    }
    let written = File::create(path).and_then(|mut file| file.write_all(bytes));
    written.map_err(|error| Failure::of(name, error))
}
