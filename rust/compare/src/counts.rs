//! How often each number, verdict or case came up.

use std::fmt;

/// All that a call can give or show, by name, and how often it did.
#[derive(Clone, PartialEq, Eq, Debug)]
pub struct Counts {
    of: &'static str,
    times: Vec<(String, u64)>,
}

impl Counts {
    pub fn new<T: ToString>(of: &'static str, all: impl IntoIterator<Item = T>) -> Counts {
        let times = all.into_iter().map(|one| (one.to_string(), 0)).collect();
        Counts { of, times }
    }

    /// One that is not among them is an error: a number that the papers do not give to the call.
    pub fn count(&mut self, one: impl ToString) {
        let one = one.to_string();
        let times = self.times.iter_mut().find(|(name, _)| *name == one);
        let (_, times) = times.unwrap_or_else(|| panic!("{} gave {one}", self.of));
        *times += 1;
    }

    /// Each with what it is of.
    pub fn met(&self) -> impl Iterator<Item = (String, u64)> + '_ {
        let each = self.times.iter();
        each.map(|(name, times)| (format!("{} {name}", self.of), *times))
    }
}

impl fmt::Display for Counts {
    fn fmt(&self, out: &mut fmt::Formatter) -> fmt::Result {
        write!(out, "{}: {}", self.of, in_line(&self.times))
    }
}

/// How often each came up, in one line.
pub fn in_line(times: &[(impl fmt::Display, u64)]) -> String {
    let each = times.iter();
    let told = each.map(|(name, times)| format!("{name} x{times}"));
    told.collect::<Vec<_>>().join(", ")
}
