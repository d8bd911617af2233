//! `otq run`.

use crate::arguments::{Choice, Given};
use crate::failure::{Failure, Status};
use crate::fields::ANSWER;
use crate::files;
use crate::json::Json;
use crate::list::List;
use crate::refused::Refused;
use crate::tool::Tool;
use crate::words;
use otq::{Answer, Played, Refusal};

pub const LOG: Choice = Choice {
    name: "--log",
    value: Some("OUT"),
    about:
        "writes the answer records to OUT; nothing if the list is refused before its first record",
};

pub fn run(tool: &mut Tool, given: &Given) -> Result<Status, Failure> {
    let list = List::read(tool, given)?;
    let played = list.run()?;
    let refused = Refused::of_run(&list, &played.run);
    if let Some(path) = given.value("--log") {
        if refused
            .as_ref()
            .is_none_or(|refused| refused.record.is_some())
        {
            files::write(path, &played.answers, &[&list.name])?;
        }
    }
    match given.has("--json") {
        true => tool.line(json(&played, refused.as_ref()))?,
        false => print(tool, &played)?,
    }
    refused.map_or(Ok(Status::Done), |refused| Err(refused.failure()))
}

/// What the printing program prints of a run.
fn print(tool: &mut Tool, Played { run, answers, .. }: &Played) -> Result<(), Failure> {
    for &answer in answers.as_chunks().0 {
        tool.line(words::answer(answer))?;
    }
    let number = run.refusal.map_or(0, Refusal::number);
    tool.line(format!("end {number} {}", run.taken))
}

fn json(Played { run, answers, .. }: &Played, refused: Option<&Refused>) -> Json {
    let answers = answers.chunks_exact(Answer::BYTES);
    Json::object([
        ("refusal", Json::or_null(refused.map(Refused::json))),
        ("taken", Json::Number(run.taken)),
        (
            "answers",
            Json::List(answers.map(|answer| ANSWER.json(answer)).collect()),
        ),
    ])
}
