//! `otq forecast`.

use crate::arguments::Given;
use crate::failure::{Failure, Status};
use crate::json::Json;
use crate::list::List;
use crate::refused::Refused;
use crate::tool::Tool;
use crate::words::amount;
use otq::Forecast;

pub fn forecast(tool: &mut Tool, given: &Given) -> Result<Status, Failure> {
    let list = List::read(tool, given)?;
    tool.progress.say(format!("forecasting {}", list.name));
    let told = list.forecast()?;
    let operations = list.records().len() as u64;
    let refused = told
        .err()
        .map(|refusal| Refused::of_begins(&list, refusal, list.begins_taken()));
    match (given.has("--json"), told) {
        (true, told) => tool.line(json(operations, told.ok(), refused.as_ref()))?,
        (false, Ok(told)) => tool.line(line(operations, told))?,
        (false, Err(_)) => {}
    }
    refused.map_or(Ok(Status::Done), |refused| Err(refused.failure()))
}

fn line(operations: u64, told: Forecast) -> String {
    format!(
        "room for {}: {}, {}, at most {}",
        amount(operations, "operation"),
        amount(told.words, "word"),
        amount(told.answer_bytes, "answer byte"),
        amount(told.records, "record")
    )
}

/// With a refusal all numbers are 0, as the library returns them.
fn json(operations: u64, told: Option<Forecast>, refused: Option<&Refused>) -> Json {
    let number = |of: fn(Forecast) -> u64| Json::Number(told.map_or(0, of));
    Json::object([
        ("refusal", Json::or_null(refused.map(Refused::json))),
        ("operations", Json::Number(told.map_or(0, |_| operations))),
        ("table_words", number(|told| told.words)),
        ("answer_bytes", number(|told| told.answer_bytes)),
        ("records", number(|told| told.records)),
    ])
}
