//! The bytes of order and answer records whose fields fill every byte that they have.

use crate::decimal::bytes;
use crate::row::{Row, Statement};
use crate::terms;
use reference::records::{Answer, Kind, OrderRecord, Outcome};

/// Each byte of a 32-bit field is another.
pub const WIDE: u32 = 0x0403_0201;

pub fn rows() -> Vec<Row> {
    let mut rows = Vec::new();
    for (process, kind, serial, root_block) in [
        (0, Kind::Put, 1, 1),
        (7, Kind::Take, 500, 4000),
        (3, Kind::Put, 0x0201, WIDE),
    ] {
        rows.push(order_row(OrderRecord {
            process,
            kind,
            serial,
            root_block,
        }));
    }
    for (outcome, steps, helps, serial, root_block) in [
        (Outcome::PutDone, 121, 10, 500, 4000),
        (Outcome::Value(WIDE), 2, 1, WIDE + 1, WIDE + 2),
        (Outcome::Value(u32::MAX), 0, 255, 0x0100, 0x0100),
        (Outcome::Value(0), 17, 0, 1, 1),
        (Outcome::Nothing, 255, 255, u32::MAX, u32::MAX),
    ] {
        rows.push(answer_row(Answer {
            process: 7,
            outcome,
            steps,
            helps,
            serial,
            root_block,
        }));
    }
    rows
}

fn row(about: &str, left: String, right: &[u8]) -> Row {
    Row {
        about: about.to_string(),
        met: Vec::new(),
        statements: vec![Statement::equal("bytes", &left, &bytes(right))],
    }
}

fn order_row(record: OrderRecord) -> Row {
    let kind = match record.kind {
        Kind::Put => "Puts",
        Kind::Take => "Takes",
    };
    let (process, serial, block) = (record.process, record.serial, record.root_block);
    let placed = format!("placed {kind} {block} (op {process} {serial})");
    let left = format!("order_bytes (order_record ({placed}))");
    row("an order record", left, &record.bytes())
}

fn answer_row(answer: Answer) -> Row {
    let left = format!("bytes_of_answer ({})", terms::answer(answer));
    row("an answer record", left, &answer.bytes())
}
