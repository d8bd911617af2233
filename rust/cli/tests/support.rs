//! `otq` as a user calls it, and files for it.

use std::ffi::OsStr;
use std::fs;
use std::path::{Path, PathBuf};
use std::process::{Command, Output};

pub fn repository() -> PathBuf {
    Path::new(env!("CARGO_MANIFEST_DIR")).join("../..")
}

/// The command, started from the repository's root.
pub fn command(words: &[impl AsRef<OsStr>]) -> Command {
    let mut command = Command::new(env!("CARGO_BIN_EXE_otq"));
    command.args(words).current_dir(repository());
    command
}

/// What a command left, without its progress, which depends on the machine.
#[derive(PartialEq, Eq, Debug)]
pub struct Said {
    pub status: i32,
    pub out: String,
    pub err: String,
}

impl Said {
    pub fn of(output: Output) -> Said {
        let said = Said {
            status: output.status.code().expect("it ends by itself"),
            out: String::from_utf8_lossy(&output.stdout).into_owned(),
            err: without_progress(&output.stderr),
        };
        assert!(!said.err.contains("panicked"), "{said:?}");
        assert!((0..=3).contains(&said.status), "{said:?}");
        said
    }
}

/// What is said besides the progress.
pub fn without_progress(bytes: &[u8]) -> String {
    let text = String::from_utf8_lossy(bytes);
    let lines = text.split_inclusive('\n');
    lines.filter(|line| !is_progress(line)).collect()
}

/// Whether a line ends with a number of seconds.
fn is_progress(line: &str) -> bool {
    let seconds = line
        .strip_suffix(" s\n")
        .and_then(|line| line.rsplit_once(", "));
    seconds.is_some_and(|(_, seconds)| seconds.parse::<u32>().is_ok())
}

pub fn otq(words: &[impl AsRef<OsStr>]) -> Said {
    Said::of(command(words).output().expect("the program starts"))
}

/// The command with this on standard input.
pub fn otq_on(words: &[&str], input: &[u8]) -> Said {
    Said::of(spawned::output(&mut command(words), input))
}

/// What a command that is done writes; it says nothing on standard error.
pub fn written(words: &[&str]) -> String {
    let said = otq(words);
    assert_eq!(
        (said.status, said.err.as_str()),
        (0, ""),
        "{words:?} {said:?}"
    );
    said.out
}

/// The bytes that a command writes.
pub fn bytes(words: &[&str]) -> Vec<u8> {
    let output = command(words).output().expect("the program starts");
    assert!(output.status.success(), "{words:?} {output:?}");
    output.stdout
}

/// The command writes nothing, ends with this status, and this begins what it says.
pub fn assert_fails(words: &[&str], status: i32, message: &str) {
    let said = otq(words);
    assert_eq!(
        (said.status, said.out.as_str()),
        (status, ""),
        "{words:?} {said:?}"
    );
    assert!(said.err.starts_with(message), "{words:?} {said:?}");
}

/// A file of the tests by its name, which no two tests share.
pub fn path(name: &str) -> String {
    format!("{}/{name}", env!("CARGO_TARGET_TMPDIR"))
}

/// The same, with this content.
pub fn file(name: &str, content: &[u8]) -> String {
    let path = path(name);
    fs::write(&path, content).expect(&path);
    path
}

/// The example of a supplier, with two processes and three operations each.
pub const STEPS: &str = "examples/supplier/steps.bin";
pub const TEXT: &str = "examples/supplier/exercise.txt";
pub const LOG: &str = "examples/supplier/answers.bin";
pub const WRONG: &str = "examples/supplier/wrong.bin";
pub const NO_HELPS: &str = "examples/supplier/no_helps.bin";
pub const TORN: &str = "examples/supplier/torn.bin";
pub const NUMBERS: [&str; 4] = ["-p", "2", "-L", "3"];

/// Begins alone, of four processes.
pub const BEGINS: &str = "examples/forecast/begins.txt";

/// A list of the dictionary, of two processes, of which the first is licensed.
pub const TERMS: &str = "examples/dictionary/deliveries.txt";

/// A price sheet of the dictionary, of four bands.
pub const SHEET: &str = "examples/dictionary/sheet.txt";

/// The words of a command on binary records of the example.
pub fn with_numbers<'a>(command: &'a str, words: &[&'a str]) -> Vec<&'a str> {
    [&[command], &NUMBERS[..], words].concat()
}

/// The content of a file of the repository.
pub fn content(name: &str) -> Vec<u8> {
    fs::read(repository().join(name)).expect(name)
}
