//! Standard output, standard error and the progress line of a command.

use crate::failure::Failure;
use crate::files::Name;
use crate::progress::Progress;
use std::fmt::Display;
use std::fs::File;
use std::io::{self, stderr, stdin, stdout, BufWriter, ErrorKind, IsTerminal, Write};
use std::os::fd::AsFd;

/// What a command writes to.
pub struct Tool {
    /// Standard output as a file, of which an error of writing is told; of `Stdout` it may be passed over.
    out: BufWriter<File>,
    /// Whether the reader of standard output has gone.
    closed: bool,
    /// Whether standard output and the progress line would stand on one screen.
    screen: bool,
    pub progress: Progress,
}

impl Tool {
    pub fn new() -> Result<Tool, Failure> {
        let out = stdout().as_fd().try_clone_to_owned();
        let out = File::from(out.map_err(output_failed)?);
        Ok(Tool {
            out: BufWriter::with_capacity(1 << 16, out),
            closed: false,
            screen: stdout().is_terminal(),
            progress: Progress::start(),
        })
    }

    /// Says that a file is read; to wait for somebody who types is no work, and a line would disturb.
    pub fn reading(&mut self, name: &Name) {
        match *name == Name::Input && stdin().is_terminal() {
            true => self.progress.end(),
            false => self.progress.say(format!("reading {name}")),
        }
    }

    /// Writes to standard output. If its reader has gone, this does nothing.
    pub fn write(&mut self, bytes: &[u8]) -> Result<(), Failure> {
        if self.screen {
            self.progress.end();
        }
        match self.closed {
            true => Ok(()),
            false => {
                let written = self.out.write_all(bytes);
                self.settle(written)
            }
        }
    }

    pub fn line(&mut self, line: impl Display) -> Result<(), Failure> {
        self.write(format!("{line}\n").as_bytes())
    }

    /// Whether nothing more can be written, so that a long output may stop.
    pub fn closed(&self) -> bool {
        self.closed
    }

    /// Writes what is still held back, before anything is said on standard error.
    pub fn finish(&mut self) -> Result<(), Failure> {
        self.progress.end();
        match self.closed {
            true => Ok(()),
            false => {
                let written = self.out.flush();
                self.settle(written)
            }
        }
    }

    fn settle(&mut self, written: io::Result<()>) -> Result<(), Failure> {
        match written {
            Err(error) if error.kind() == ErrorKind::BrokenPipe => {
                self.closed = true;
                Ok(())
            }
            written => written.map_err(output_failed),
        }
    }
}

fn output_failed(error: io::Error) -> Failure {
    Failure::of("standard output", error)
}

/// Says something on standard error; where that fails, there is nothing left to say it on.
pub fn tell(message: &str) {
    let _ = writeln!(stderr(), "{message}");
}
