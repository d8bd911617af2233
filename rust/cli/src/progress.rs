//! A line on standard error about work that takes more than a second.

use std::io::{stderr, IsTerminal, Write};
use std::sync::mpsc::{channel, RecvTimeoutError, Sender};
use std::sync::{Arc, Mutex};
use std::thread::{self, JoinHandle};
use std::time::{Duration, Instant};

/// The progress of a command. It is told by a thread, since a call of the library is in one piece.
pub struct Progress {
    what: Arc<Mutex<String>>,
    /// The thread, until it is ended, and what ends it.
    told: Option<(Sender<()>, JoinHandle<()>)>,
}

impl Progress {
    pub fn start() -> Progress {
        let what = Arc::new(Mutex::new(String::from("working")));
        let (ends, ended) = channel();
        let shared = Arc::clone(&what);
        let screen = stderr().is_terminal();
        let began = Instant::now();
        let tells = move || {
            let mut wait = 1;
            let mut shown = false;
            while let Err(RecvTimeoutError::Timeout) = ended.recv_timeout(Duration::from_secs(wait))
            {
                let what = shared
                    .lock()
                    .map_or_else(|_| String::new(), |what| what.clone());
                show(
                    screen,
                    &format!("otq: {what}, {} s", began.elapsed().as_secs()),
                );
                shown = true;
                // A screen has one line that changes; a file gets fewer and fewer lines.
                wait = if screen { 1 } else { 2 * wait };
            }
            if screen && shown {
                let _ = write!(stderr(), "\r\x1b[K");
            }
        };
        // Without a thread there is no progress, and all else goes on.
        let thread = thread::Builder::new().stack_size(1 << 16).spawn(tells);
        Progress {
            what,
            told: thread.ok().map(|thread| (ends, thread)),
        }
    }

    /// What is done from now on.
    pub fn say(&self, what: String) {
        if let Ok(mut shown) = self.what.lock() {
            *shown = what;
        }
    }

    /// Ends the line, which is not shown again.
    pub fn end(&mut self) {
        if let Some((ends, thread)) = self.told.take() {
            let _ = ends.send(());
            let _ = thread.join();
        }
    }
}

fn show(screen: bool, line: &str) {
    let _ = match screen {
        true => write!(stderr(), "\r{line}\x1b[K"),
        false => writeln!(stderr(), "{line}"),
    };
}
