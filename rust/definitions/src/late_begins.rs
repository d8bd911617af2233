//! Begins that come late in a list too long for the prover to play. The process that begins is given
//! as the reference has it after the records before; the numbers are those of the whole list.

use crate::decimal::bytes;
use crate::met::Met;
use crate::row::{Row, Statement};
use crate::terms;
use reference::check::check_log;
use reference::list::list_order;
use reference::lists::List;
use reference::process::{Activity, Process, Step};
use reference::records::STEP_RECORD_BYTES;
use reference::run::{play, run, Room};
use reference::tree::Shape;

/// At the edges of L: inside the last operation, inside the one before it, and after the last.
pub fn rows() -> Vec<Row> {
    let mut rows = Vec::new();
    for l in [1, 2, 500] {
        let begun = |count| List::new().whole_puts(0, count - 1, 17).put(0, 7);
        rows.push(row(l, begun(l).put(0, 8)));
        rows.push(row(l, begun(l).steps(0, 17).take(0)));
        if l > 1 {
            rows.push(row(l, begun(l - 1).take(0)));
        }
    }
    rows
}

fn row(l: u32, list: List) -> Row {
    let records = list.bytes();
    let shape = Shape::new(2, l).expect("a proper shape");
    let (before, begin) = records.split_at(records.len() - STEP_RECORD_BYTES);
    let process = *play(shape, before, Room::Unlimited).machine.process(0);
    let [by_run, by_list, by_check] = numbers(shape, &records);
    let theorem = Statement::equal(
        "late",
        &format!("late_begin 2 {l} {} {}", standing(process), bytes(begin)),
        &format!("numbers {by_run} {by_list} {by_check}"),
    );
    Row {
        about: format!("a late begin, L = {l}, {} begun", process.begun),
        met: vec![Met::new("begin", case(l, process, by_run))],
        statements: vec![theorem],
    }
}

/// What Run, list the order and check a log return of the whole list.
fn numbers(shape: Shape, records: &[u8]) -> [u32; 3] {
    let (p, l) = (shape.p(), shape.l());
    let mut table = vec![0; shape.words_needed()];
    let mut answers = vec![0; 2 * records.len()];
    [
        run(p, l, records, &mut table, &mut answers).refusal,
        list_order(p, l, records, &mut table, &mut []).refusal,
        check_log(p, l, records, &[], &mut table).refusal,
    ]
}

/// The process as the definitions write it: idle, or at its A.
fn standing(process: Process) -> String {
    let status = match process.activity {
        Activity::Idle => "Idle".to_string(),
        Activity::Busy {
            operation,
            step: Step::A,
            steps: 0,
            helps: 0,
        } => format!("(Busy ({}) A)", terms::operation(Some(operation))),
        _ => panic!("a begin is met idle or at A"),
    };
    format!("(process {status} {})", process.begun)
}

/// Which of the tests the begin fails, and the number.
fn case(l: u32, process: Process, number: u32) -> String {
    let busy = process.activity != Activity::Idle;
    let inside = match (busy, process.begun == l) {
        (true, true) => "inside the last",
        (true, false) => "inside another",
        (false, _) => "after the last",
    };
    format!("{inside} of {l}: {number}")
}
