//! Records and nodes in words, and words of the command line.

use crate::notation::{Line, Record};
use otq::{Answer, Kind, Order, Outcome, ROOT};
use std::ffi::OsStr;
use std::str::FromStr;

/// The most characters of what was found that are told.
const MOST_TOLD: usize = 60;

/// A word of the command line, such as the name of a file. A control character would act on the terminal
/// that shows it.
pub fn shown(word: &OsStr) -> String {
    match word.is_empty() {
        true => "``".to_string(),
        false => without_controls(&word.to_string_lossy()),
    }
}

fn without_controls(text: &str) -> String {
    let shown = text
        .chars()
        .map(|c| if c.is_control() { '\u{fffd}' } else { c });
    shown.collect()
}

/// The number that a word is, digits only, since `parse` takes a sign too.
pub fn decimal<T: FromStr>(word: &str) -> Option<T> {
    let digits = word.bytes().all(|byte| byte.is_ascii_digit());
    word.parse().ok().filter(|_| digits)
}

/// That something else was expected than was found.
pub fn expected(what: &str, found: &str) -> String {
    let shown = without_controls(found);
    let told: String = shown.chars().take(MOST_TOLD).collect();
    let more = if told.len() < shown.len() { ".." } else { "" };
    format!("expected {what}, found `{told}{more}`")
}

/// A step record in the notation.
pub fn step(record: Record) -> String {
    Line { record, count: 1 }.to_string()
}

/// An answer record as the printing program has it: put or take, process, serial, own steps, helps,
/// root block, and for a take the value or `none`. Bytes that are no answer are shown as they are.
pub fn answer(record: [u8; Answer::BYTES]) -> String {
    let Ok(answer) = Answer::try_from(record) else {
        return bytes(&record);
    };
    let Answer {
        process,
        serial,
        steps,
        helps,
        root_block,
        outcome,
    } = answer;
    let line = format!(
        "{} {process} {serial} {steps} {helps} {root_block}",
        kind(outcome.kind())
    );
    match outcome {
        Outcome::Done => line,
        Outcome::Value(value) => format!("{line} {value}"),
        Outcome::Nothing => format!("{line} none"),
    }
}

/// An order record: put or take, process, serial, root block.
pub fn order(record: [u8; Order::BYTES]) -> String {
    match Order::try_from(record) {
        Ok(Order {
            process,
            serial,
            root_block,
            kind: what,
        }) => {
            format!("{} {process} {serial} {root_block}", kind(what))
        }
        Err(_) => bytes(&record),
    }
}

fn kind(kind: Kind) -> &'static str {
    match kind {
        Kind::Put => "put",
        Kind::Take => "take",
    }
}

/// Bytes that no other line can say.
fn bytes(bytes: &[u8]) -> String {
    format!("raw {}", hex(bytes))
}

pub fn hex(bytes: &[u8]) -> String {
    let bytes: Vec<String> = bytes.iter().map(|byte| format!("{byte:02x}")).collect();
    bytes.join(" ")
}

/// A node of the tree: the root, an inner node by its number, a leaf by its process.
pub fn node_name(node: u32, leaf_of: Option<u32>) -> String {
    match (node, leaf_of) {
        (ROOT, _) => "the root".to_string(),
        (_, Some(process)) => format!("leaf {process}"),
        (inner, None) => format!("node {inner}"),
    }
}

/// A number of things, such as `1 put` and `2 puts`.
pub fn count(number: usize, thing: &str) -> String {
    match number {
        1 => format!("1 {thing}"),
        _ => format!("{number} {thing}s"),
    }
}

/// The same with commas between thousands, such as `2,065 words`.
pub fn amount(number: u64, thing: &str) -> String {
    let counted = count(number as usize, thing);
    let digits = number.to_string().len();
    format!("{}{}", thousands(number), &counted[digits..])
}

/// A number with commas between thousands.
pub fn thousands(number: u64) -> String {
    let digits = number.to_string();
    let mut told = String::new();
    for (index, digit) in digits.chars().enumerate() {
        if index > 0 && (digits.len() - index).is_multiple_of(3) {
            told.push(',');
        }
        told.push(digit);
    }
    told
}

/// Where a file is torn: how many whole records it has, and what is left after them.
pub fn torn(length: usize, size: usize, what: &str) -> String {
    let (whole, rest) = (length / size, length % size);
    let (records, bytes) = (count(whole, &format!("whole {what}")), count(rest, "byte"));
    format!("{records}, then {bytes} at byte {}", whole * size)
}

#[cfg(test)]
mod tests {
    use super::{amount, node_name};

    #[test]
    fn nodes() {
        assert_eq!(node_name(1, None), "the root");
        assert_eq!(node_name(3, None), "node 3");
        assert_eq!(node_name(3, Some(1)), "leaf 1");
    }

    #[test]
    fn amounts() {
        for (number, told) in [
            (0, "0 words"),
            (1, "1 word"),
            (999, "999 words"),
            (1_000, "1,000 words"),
            (488_000, "488,000 words"),
            (1_234_567, "1,234,567 words"),
        ] {
            assert_eq!(amount(number, "word"), told);
        }
    }
}
