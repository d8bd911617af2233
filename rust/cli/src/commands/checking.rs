//! `otq check`.

use crate::arguments::{Choice, Given};
use crate::differences::{differences, Difference};
use crate::failure::{Failure, Status};
use crate::files::{records, Name};
use crate::json::{comma, Json};
use crate::list::{leave_out_torn, List};
use crate::refused::Refused;
use crate::tool::Tool;
use crate::words::count;
use otq::{Answer, Refusal, Verdict};

pub const ALL: Choice = Choice {
    name: "--all",
    value: None,
    about: "tells every difference, and how many there are",
};

pub fn check(tool: &mut Tool, given: &Given) -> Result<Status, Failure> {
    let list = List::read(tool, given)?;
    let name = Name::new(&given.files[1]);
    tool.reading(&name);
    let mut log = records(&name, "answer records")?;
    if given.has("--whole") {
        leave_out_torn(&name, &mut log, Answer::BYTES);
    }
    tool.progress.say(format!("checking {name}"));
    let json = given.has("--json");
    let check = Check {
        list: &list,
        log: &log,
        all: given.has("--all"),
    };
    match list.check(&log)? {
        Verdict::Same => {
            check.tell_same(tool, json)?;
            Ok(Status::Done)
        }
        Verdict::Differs(index) => {
            match json {
                true => check.tell_json(tool, index as usize)?,
                false => check.tell_lines(tool, index as usize)?,
            }
            Ok(Status::Differs)
        }
        Verdict::Refused(refusal) => {
            let refused = match refusal {
                Refusal::LogTorn => Refused::of_log(&list, &name, &log),
                _ => Refused::of_list(&list, refusal, list.taken()),
            };
            if json {
                tool.line(beginning("refused", Some(&refused), log.len()) + &end(None))?;
            }
            Err(refused.failure())
        }
    }
}

/// A log that was compared with the rules.
struct Check<'a> {
    list: &'a List,
    log: &'a [u8],
    /// Whether every difference is wanted, or the first alone.
    all: bool,
}

impl Check<'_> {
    fn tell_same(&self, tool: &mut Tool, json: bool) -> Result<(), Failure> {
        match json {
            true => tool.line(beginning("same", None, self.log.len()) + &end(Some(0))),
            false => tool.line(format!("same, {}", answers(self.log))),
        }
    }

    fn tell_lines(&self, tool: &mut Tool, first: usize) -> Result<(), Failure> {
        let by_rules = self.list.answers();
        let count_told = self.each(tool, &by_rules, first, |tool, _, difference| {
            difference
                .lines(self.list)
                .iter()
                .try_for_each(|line| tool.line(line))
        })?;
        let lengths = format!(
            "the log has {}, the rules give {}",
            answers(self.log),
            answers(&by_rules)
        );
        tool.line(match self.all {
            true => format!("{}; {lengths}", count(count_told, "difference")),
            false => format!("{lengths}; --all tells every difference"),
        })
    }

    fn tell_json(&self, tool: &mut Tool, first: usize) -> Result<(), Failure> {
        let by_rules = self.list.answers();
        tool.write(beginning("differs", None, self.log.len()).as_bytes())?;
        let told = self.each(tool, &by_rules, first, |tool, told, difference| {
            tool.write(format!("{}{}", comma(told), difference.json(self.list)).as_bytes())
        })?;
        tool.line(end(self.all.then_some(told)))
    }

    /// Tells the differences that are wanted, and gives their number. The first is that of the
    /// library's verdict.
    fn each(
        &self,
        tool: &mut Tool,
        by_rules: &[u8],
        first: usize,
        mut tell: impl FnMut(&mut Tool, usize, &Difference) -> Result<(), Failure>,
    ) -> Result<usize, Failure> {
        let mut told = 0;
        for difference in differences(self.list, by_rules, self.log) {
            if told == 0 && difference.index != first {
                let index = difference.index;
                let message = format!("the check found index {first}, the run {index}: no verdict");
                return Err(Failure::mistake(message));
            }
            tell(tool, told, &difference)?;
            told += 1;
            if !self.all || tool.closed() {
                break;
            }
            tool.progress
                .say(format!("{} so far", count(told, "difference")));
        }
        Ok(told)
    }
}

fn answers(bytes: &[u8]) -> String {
    count(bytes.len() / Answer::BYTES, "answer")
}

/// The object of a verdict up to the list of differences, which may be too long to be held.
fn beginning(verdict: &str, refused: Option<&Refused>, log: usize) -> String {
    let object = Json::object([
        ("verdict", Json::text(verdict)),
        ("refusal", Json::or_null(refused.map(Refused::json))),
        ("answers_in_log", Json::Number((log / Answer::BYTES) as u64)),
        ("differences", Json::List(Vec::new())),
    ]);
    let text = object.to_string();
    text.strip_suffix("]}").unwrap_or(&text).to_string()
}

/// The rest of the object: how many differences there are, where that is known.
fn end(count: Option<usize>) -> String {
    format!("], \"count\": {}}}", Json::number(count))
}
