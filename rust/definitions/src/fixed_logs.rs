//! Fixed calls of check a log: torn logs, and every verdict.

use crate::call::{kept_bytes, Call};
use crate::fixed_records::{one_put, put_and_take};
use crate::row::Row;
use reference::known_runs::m6;
use reference::lists::List;

pub fn rows() -> Vec<Row> {
    [
        torn(),
        torn_first(),
        unequal(),
        counts(),
        lengths(),
        refused(),
    ]
    .into_iter()
    .flatten()
    .collect()
}

/// Number 11: some bytes past the whole log, and some bytes alone.
fn torn() -> Vec<Row> {
    let call = Call::ample(2, 1, one_put().bytes());
    let mut rows = Vec::new();
    for bytes in 1..16 {
        let torn = call.with(|call| call.log.extend(kept_bytes(bytes)));
        rows.push(torn.row(format!("{bytes} bytes past the log")));
    }
    for bytes in [1, 8, 15] {
        let torn = call.with(|call| call.log.truncate(bytes));
        rows.push(torn.row(format!("{bytes} bytes of the log")));
    }
    rows
}

/// 11 before 5 to 8, with nothing changed; and on p = 4 and 8.
fn torn_first() -> Vec<Row> {
    let ill_formed = vec![1, 1, 0, 1, 0, 0, 0, 0];
    let busy = List::new().put(0, 7).take(0).bytes();
    let lists = [
        ("11 before 5", 2, 1, ill_formed),
        ("11 before 6", 2, 2, busy.clone()),
        ("11 before 7", 2, 1, List::new().steps(0, 1).bytes()),
        ("11 before 8", 2, 1, one_put().take(0).bytes()),
        ("11 before 8 and 6", 2, 1, busy),
        ("p = 4, a torn log", 4, 1, List::new().put(0, 7).bytes()),
        ("p = 8, a torn log", 8, 1, List::new().put(0, 7).bytes()),
    ];
    let row = |(about, p, l, list)| {
        let call = Call::ample(p, l, list);
        call.with(|call| call.log = kept_bytes(17)).row(about)
    };
    lists.map(row).into()
}

/// Each byte of a record changed, in the first record or in the second.
fn unequal() -> Vec<Row> {
    let call = Call::ample(2, 1, put_and_take().bytes());
    let mut rows = Vec::new();
    for byte in 0..16 {
        let record = byte % 2;
        let changed = call.with(|call| call.log[16 * record + byte] ^= 1 << (byte % 8));
        rows.push(changed.row(format!("byte {byte} of record {record} unequal")));
    }
    rows
}

/// M6, of 20 steps and 1 help and then 15 and 0: in each record the steps alone unequal, byte 2,
/// the helps alone, byte 3, and the two exchanged.
fn counts() -> Vec<Row> {
    let call = Call::ample(2, 1, m6(0, 1).bytes());
    let mut rows = Vec::new();
    for record in [0, 1] {
        for (told, byte) in [("steps", 2), ("helps", 3)] {
            let off = call.with(|call| call.log[16 * record + byte] ^= 1);
            rows.push(off.row(format!("{told} of record {record} off by one")));
        }
        let exchanged = call.with(|call| call.log.swap(16 * record + 2, 16 * record + 3));
        rows.push(exchanged.row(format!("steps and helps of record {record} exchanged")));
    }
    rows
}

/// Logs that are the same, shorter and longer, and those that are unequal before that.
fn lengths() -> Vec<Row> {
    let call = Call::ample(2, 1, put_and_take().bytes());
    let whole = &call.log[..];
    let (first, second) = whole.split_at(16);
    let zeros = &[0; 16][..];
    let logs: [(&str, &[&[u8]]); 11] = [
        ("the same", &[whole]),
        ("the second lacks", &[first]),
        ("the first lacks", &[second]),
        ("both lack", &[]),
        ("zeros more", &[whole, zeros]),
        ("the second again", &[whole, second]),
        ("the whole log again", &[whole, whole]),
        ("the first unequal and one more", &[zeros, second, zeros]),
        ("the first unequal and shorter", &[zeros]),
        ("the second unequal and one more", &[first, zeros, zeros]),
        ("the two turned round", &[second, first]),
    ];
    let row = |(about, log): (&str, &[&[u8]])| call.with(|call| call.log = log.concat()).row(about);
    let mut rows: Vec<Row> = logs.map(row).into();
    let none = Call::ample(2, 1, List::new().put(0, 1).steps(0, 16).bytes());
    rows.push(none.row("no answer, and no log"));
    let one = none.with(|call| call.log = first.to_vec());
    rows.push(one.row("no answer, and a log of one"));
    rows
}

/// A refusal whatever the log says: that of the answers before it, none, and a longer one.
fn refused() -> Vec<Row> {
    let whole = Call::ample(2, 1, put_and_take().bytes()).log;
    let busy = one_put().put(1, 2).put(1, 3);
    let lists = [
        ("a step while idle", 1, one_put().steps(1, 1)),
        ("a begin while busy", 2, busy.clone()),
        ("a begin inside the last operation", 1, busy),
        ("a begin too many", 1, one_put().put(0, 2)),
    ];
    let mut rows = Vec::new();
    for (about, l, list) in lists {
        let call = Call::ample(2, l, list.bytes());
        for log in [&call.log[..], &[], &whole] {
            let other = call.with(|call| call.log = log.to_vec());
            rows.push(other.row(format!("{about}, a log of {}", log.len() / 16)));
        }
    }
    rows
}
