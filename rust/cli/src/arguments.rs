//! The words of a command line: options and files.

use crate::failure::Failure;
use crate::words::{decimal, expected, shown};
use std::ffi::{OsStr, OsString};
use std::os::unix::ffi::OsStrExt;
use std::str::FromStr;

/// An option, and what its value is called; `None` if it has none.
pub struct Choice {
    pub name: &'static str,
    pub value: Option<&'static str>,
    /// What it is for; of a number, up to a semicolon, what the number is.
    pub about: &'static str,
}

/// The options and files that a command was given.
#[derive(Default)]
pub struct Given {
    options: Vec<(&'static Choice, OsString)>,
    pub files: Vec<OsString>,
}

impl Given {
    /// Reads the words of a command that knows these options.
    pub fn read(choices: &[&'static Choice], words: Vec<OsString>) -> Result<Given, String> {
        let mut given = Given::default();
        let mut words = words.into_iter();
        while let Some(word) = words.next() {
            match word.as_bytes() {
                b"--" => given.files.extend(words.by_ref()),
                [b'-', _, ..] => given.read_option(choices, &word, &mut words)?,
                _ => given.files.push(word),
            }
        }
        Ok(given)
    }

    /// `-p 2`, `--seed 2` or `--seed=2`.
    fn read_option(
        &mut self,
        choices: &[&'static Choice],
        word: &OsStr,
        words: &mut impl Iterator<Item = OsString>,
    ) -> Result<(), String> {
        let mut parts = word.as_bytes().splitn(2, |&byte| byte == b'=');
        let name = OsStr::from_bytes(parts.next().unwrap_or_default());
        let joined = parts.next().map(|value| OsStr::from_bytes(value).into());
        let choice = choices.iter().find(|choice| name == choice.name);
        let choice = choice.ok_or_else(|| format!("there is no option {}", shown(name)))?;
        let name = choice.name;
        if self.has(name) {
            return Err(format!("{name} is given twice"));
        }
        let value = match (choice.value, joined) {
            (None, None) => OsString::new(),
            (None, Some(_)) => return Err(format!("{name} has no value")),
            (Some(value), joined) => {
                let next = joined.or_else(|| words.next());
                next.ok_or_else(|| format!("{name} needs its {value}"))?
            }
        };
        self.options.push((choice, value));
        Ok(())
    }

    /// Whether the option is given.
    pub fn has(&self, name: &str) -> bool {
        self.value(name).is_some()
    }

    pub fn value(&self, name: &str) -> Option<&OsStr> {
        let option = self.options.iter().find(|(given, _)| given.name == name);
        option.map(|(_, value)| value.as_os_str())
    }

    /// The value of an option as a number that the check lets pass. Of another what is meant is told.
    pub fn number_if<T: FromStr>(
        &self,
        choice: &Choice,
        check: impl Fn(&T) -> bool,
    ) -> Result<Option<T>, Failure> {
        let meant = choice.about.split(';').next().unwrap_or_default();
        let value = self.value(choice.name);
        let number = value.map(|value| number_if(choice.name, meant, value, check));
        number.transpose()
    }

    /// The same, whatever the number is.
    pub fn number<T: FromStr>(&self, choice: &Choice) -> Result<Option<T>, Failure> {
        self.number_if(choice, |_| true)
    }
}

/// The number that a word is. If it is none that the check lets pass, what is meant by the name is told.
pub fn number_if<T: FromStr>(
    name: &str,
    meant: &str,
    word: &OsStr,
    check: impl Fn(&T) -> bool,
) -> Result<T, Failure> {
    let number = word.to_str().and_then(decimal).filter(check);
    number.ok_or_else(|| Failure::of(name, expected(meant, &word.to_string_lossy())))
}
