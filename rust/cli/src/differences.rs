//! Where a log and the answers of the rules differ.

use crate::fields::ANSWER;
use crate::json::Json;
use crate::list::List;
use crate::refused::Place;
use otq::Answer;

type Record = [u8; Answer::BYTES];

/// An answer that is unequal, or lacking on one side.
pub struct Difference<'a> {
    /// From 0.
    pub index: usize,
    by_rules: Option<&'a Record>,
    in_log: Option<&'a Record>,
    /// The record of the list, from 0, that ended the operation.
    ended: Option<usize>,
}

/// The differences of the log from the answers that the library gave, in order.
pub fn differences<'a>(
    list: &'a List,
    answers: &'a [u8],
    log: &'a [u8],
) -> impl Iterator<Item = Difference<'a>> {
    let (answers, log) = (answers.as_chunks().0, log.as_chunks().0);
    let all = 0..answers.len().max(log.len());
    let differing = all.filter(|&index| answers.get(index) != log.get(index));
    differing.map(move |index| Difference {
        index,
        by_rules: answers.get(index),
        in_log: log.get(index),
        ended: answers
            .get(index)
            .and_then(|_| list.record_that_ended(index)),
    })
}

impl Difference<'_> {
    /// The first byte of the log that differs; where one side lacks the answer, its first byte.
    fn byte(&self) -> usize {
        let within = match (self.by_rules, self.in_log) {
            (Some(rules), Some(log)) => rules.iter().zip(log).position(|(rules, log)| rules != log),
            _ => None,
        };
        Answer::BYTES * self.index + within.unwrap_or(0)
    }

    /// In lines, for people.
    pub fn lines(&self, list: &List) -> Vec<String> {
        let (number, at) = (self.index + 1, Answer::BYTES * self.index);
        let mut lines = vec![format!("differs at answer {number}, byte {at} of the log")];
        lines.push(row("", "by the rules", "in the log", ""));
        for field in ANSWER.fields {
            let shown = |side: Option<&Record>| side.map(|record| field.shown(record));
            let (rules, log) = (shown(self.by_rules), shown(self.in_log));
            let mark = if rules == log { "" } else { "<" };
            let told = |side: Option<String>| side.unwrap_or_else(|| "-".to_string());
            lines.push(row(field.name, &told(rules), &told(log), mark));
        }
        lines.push(format!("  {}", self.first_byte()));
        lines.push(match self.ended {
            Some(record) => {
                let place = Place::of_record(list, record);
                format!("  the operation ended with {place}")
            }
            None => "  the list has no operation that ends here".to_string(),
        });
        lines
    }

    fn first_byte(&self) -> String {
        let byte = self.byte();
        let within = byte % Answer::BYTES;
        match (self.by_rules, self.in_log) {
            (Some(rules), Some(log)) => format!(
                "the first byte that differs is byte {byte} of the log: {:02x} by the rules, {:02x} in the log",
                rules[within], log[within]
            ),
            (Some(_), None) => format!("the log ends at byte {byte}, before this answer"),
            (None, _) => format!("the rules give no answer more; in the log one stands at byte {byte}"),
        }
    }

    pub fn json(&self, list: &List) -> Json {
        let line = self.ended.and_then(|record| list.line_of(record));
        let answer = |side: Option<&Record>| Json::or_null(side.map(|record| ANSWER.json(record)));
        Json::object([
            ("index", Json::number(Some(self.index))),
            ("byte", Json::number(Some(self.byte()))),
            ("record", Json::number(self.ended.map(|record| record + 1))),
            ("line", Json::number(line)),
            ("by_rules", answer(self.by_rules)),
            ("in_log", answer(self.in_log)),
        ])
    }
}

/// A line of the table that sets both records side by side.
fn row(name: &str, rules: &str, log: &str, mark: &str) -> String {
    let row = format!("  {name:<12}{rules:<15}{log:<15}{mark}");
    row.trim_end().to_string()
}
