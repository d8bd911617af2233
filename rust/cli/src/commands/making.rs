//! `otq make`.

use super::{L, P};
use crate::arguments::{Choice, Given};
use crate::failure::{Failure, Status};
use crate::files;
use crate::notation::lines;
use crate::tool::Tool;
use crate::words::expected;
use reference::process::STEP_NAMES;
use reference::schedules::{schedule, Pace, Plan};
use std::fmt::Write;

pub const PACE: Choice = Choice {
    name: "--pace",
    value: Some("PACE"),
    about: "whose turn it is: uniform (any process), bursts:N (one process for up to N records),\n\
            lockstep (each in turn), one (an operation at a time), stall:STEP (processes stop\n\
            before that step, such as C4, while others go on)",
};
pub const SEED: Choice = Choice {
    name: "--seed",
    value: Some("S"),
    about: "a number from 0 on; the same one makes the same exercise",
};
pub const OUT: Choice = Choice {
    name: "-o",
    value: Some("OUT"),
    about: "writes to OUT and not to standard output",
};

/// The longest burst, more than any list has records.
const LONGEST: u32 = 1_000_000;

pub fn make(tool: &mut Tool, given: &Given) -> Result<Status, Failure> {
    let numbers = (given.number(&P)?, given.number(&L)?, given.number(&SEED)?);
    let pace = given.value("--pace").map(|word| word.to_string_lossy());
    let ((Some(p), Some(l), Some(seed)), Some(pace)) = (numbers, pace) else {
        return Err(Failure::mistake(
            "give -p P, -L L, --pace PACE and --seed S",
        ));
    };
    let plan_pace = read_pace(&pace).ok_or_else(|| no_pace(&pace))?;
    if let Some(refusal) = otq::play(p, l, &[]).run.refusal {
        return Err(Failure {
            status: Status::Refused,
            message: format!("otq: refused with {}: {refusal}", refusal.number()),
        });
    }
    tool.progress.say("making an exercise".to_string());
    let records = schedule(&Plan::new(p, l, plan_pace, seed));
    if let Some(refusal) = otq::play(p, l, &records).run.refusal {
        return Err(Failure::mistake(format!(
            "the library refuses what was made: {refusal}"
        )));
    }
    let mut text = format!("# otq make -p {p} -L {l} --pace {pace} --seed {seed}\n");
    text += &format!("processes {p}\noperations {l}\n");
    for line in lines(records.as_chunks().0) {
        let _ = writeln!(text, "{line}");
    }
    match given.value("-o") {
        Some(path) => files::write(path, text.as_bytes(), &[])?,
        None => tool.write(text.as_bytes())?,
    }
    Ok(Status::Done)
}

fn read_pace(word: &str) -> Option<Pace> {
    let (name, value) = word.split_once(':').unwrap_or((word, ""));
    match (name, value) {
        ("uniform", "") => Some(Pace::Uniform),
        ("lockstep", "") => Some(Pace::Lockstep),
        ("one", "") => Some(Pace::OneAtATime),
        ("bursts", longest) => {
            let longest = longest.parse().ok()?;
            (1..=LONGEST)
                .contains(&longest)
                .then_some(Pace::Bursts(longest))
        }
        ("stall", step) => {
            let named = |name: &&reference::process::StepName| format!("{name:?}") == step;
            let step = *STEP_NAMES.iter().find(named)?;
            Some(Pace::Stalls { step, after: false })
        }
        _ => None,
    }
}

fn no_pace(found: &str) -> Failure {
    let names: Vec<String> = STEP_NAMES.iter().map(|name| format!("{name:?}")).collect();
    let paces = format!(
        "uniform, bursts:N, lockstep, one or stall:STEP, with N from 1 to {LONGEST} and STEP one of {}",
        names.join(" ")
    );
    Failure::of("--pace", expected(&paces, found))
}
