//! What the printing program prints of a run.

use crate::records::{Answer, Outcome, ANSWER_RECORD_BYTES};
use crate::run::{run, RunResult};

pub const P: u32 = 4;
pub const L: u32 = 24;
pub const TABLE_WORDS: usize = 2065;
pub const RECORD_BYTES: usize = 65536;
const ANSWER_BYTES: usize = 1536;

/// The whole print; input longer than the record buffer prints `long` alone.
pub fn print_run(input: &[u8]) -> String {
    if input.len() > RECORD_BYTES {
        return "long\n".to_string();
    }
    let mut table = [0; TABLE_WORDS];
    let mut answers = [0; ANSWER_BYTES];
    let result = run(P, L, input, &mut table, &mut answers);
    print_result(result, &answers)
}

/// One line an answer that Run wrote, and the last line.
pub fn print_result(result: RunResult, answers: &[u8]) -> String {
    let mut print = String::new();
    for bytes in answers
        .chunks_exact(ANSWER_RECORD_BYTES)
        .take(result.answers as usize)
    {
        let answer = Answer::read(bytes).expect("Run writes well-formed answers");
        print += &line(answer);
    }
    print + &format!("end {} {}\n", result.refusal, result.taken)
}

fn line(answer: Answer) -> String {
    let Answer {
        process,
        steps,
        helps,
        serial,
        root_block,
        ..
    } = answer;
    let numbers = format!("{process} {serial} {steps} {helps} {root_block}");
    match answer.outcome {
        Outcome::PutDone => format!("put {numbers}\n"),
        Outcome::Value(value) => format!("take {numbers} {value}\n"),
        Outcome::Nothing => format!("take {numbers} none\n"),
    }
}
