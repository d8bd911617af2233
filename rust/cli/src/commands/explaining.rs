//! `otq explain`.

use crate::arguments::Given;
use crate::failure::{Failure, Status};
use crate::fields::{Sort, ANSWER, BAND, ORDER, STEP};
use crate::refused::{explained, explained_of_sheet};
use crate::tool::Tool;
use crate::words::expected;

/// What is counted as a help.
const HELP: &str = "\
A node's head is the place of its next block; who writes a block there raises the head past it, in step
V3. A help is such a move inside a refresh: an operation finds a block at a child's head (R3, R5), and
its V3 raises that head. A trace tells whose block it was: that of the process which wrote it. If the V3
finds the head raised already, that is no help; nor are the moves after A and C4, of the heads of the own
leaf and of the refreshed node.
";

/// What the number 0 means.
const NOTHING: &str = "0 nothing is refused";

pub fn explain(tool: &mut Tool, given: &Given) -> Result<Status, Failure> {
    let word = given.files.first().map(|word| word.to_string_lossy());
    match word.as_deref() {
        None => overview(tool)?,
        Some("0") => tool.line(NOTHING)?,
        Some("records") => {
            for sort in [STEP, ANSWER, ORDER, BAND] {
                tool.line(layout(&sort))?;
            }
            tool.line(HELP)?;
            tool.line(
                "Numbers have their low byte first. Records follow each other, without a header.",
            )?;
        }
        Some(word) => {
            let number = word.parse().ok();
            let all = explained();
            let last = all.last().map_or(0, |(reason, _)| reason.number);
            let mut all = all.into_iter();
            let found = all.find(|(reason, _)| Some(reason.number) == number);
            let meant = format!("a number from 0 to {last} or `records`");
            let told = || Failure::mistake(expected(&meant, word));
            let (reason, advice) = found.ok_or_else(told)?;
            tool.line(format!("{} {}.\n{advice}", reason.number, reason.meaning))?;
            if let Some((of_sheet, advice)) = explained_of_sheet(reason.number) {
                let meaning = of_sheet.meaning;
                tool.line(format!("\nOf a price sheet: {meaning}.\n{advice}"))?;
            }
        }
    }
    Ok(Status::Done)
}

fn overview(tool: &mut Tool) -> Result<(), Failure> {
    tool.line(NOTHING)?;
    for (reason, _) in explained() {
        tool.line(format!("{} {}", reason.number, reason.meaning))?;
    }
    tool.line(
        "\nThe first test that fails is told. Of a call: 1, 2, 3, 4, of a check then 11. Of a begin: \
         5, 8, 6. Of a step: 5, 7, of a run then 9. Of a list of the order, at the end: 10. Of a \
         forecast: 1, 2, 4, and of each record: 5, 12, 8. Of the desk: 1, 2, 13, 3, 4, of a begin: 5, 8, \
         6, 14, of a step: 5, 7, at the end: 10, here that the terms are longer than the output. Of a \
         price sheet: 2, here that the count of deliveries is over 4,000, 4, 15, 16.",
    )?;
    tool.line("\n`otq explain N` says what to do, `otq explain records` how records are laid out.")
}

fn layout(sort: &Sort) -> String {
    let mut text = format!("{}, {} bytes\n", sort.name, sort.bytes);
    for field in sort.fields {
        let codes = field
            .codes
            .iter()
            .map(|(code, word)| format!("{code} {word}"));
        let codes: Vec<String> = codes.collect();
        let meaning = match codes.is_empty() {
            true => field.meaning.to_string(),
            false => codes.join(", "),
        };
        text += &format!("  {:<12}{:<12}{meaning}\n", field.place(), field.name);
    }
    text
}
