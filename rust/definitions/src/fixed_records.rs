//! Fixed calls whose records are refused, and those that run out of answer bytes or of output.

use crate::call::{kept_bytes, Call};
use crate::fixed_bytes::WIDE;
use crate::row::Row;
use reference::lists::List;

pub fn rows() -> Vec<Row> {
    [
        ill_formed(),
        ill_formed_first(),
        begins_while_busy(),
        steps_while_idle(),
        begun_all(),
        begun_all_first(),
        no_room(),
        short_output(),
        output_last(),
    ]
    .into_iter()
    .flatten()
    .collect()
}

/// The list with one more record, given by its bytes.
fn then(list: List, record: [u8; 8]) -> Vec<u8> {
    [list.bytes(), record.to_vec()].concat()
}

/// A put alone, whole at p = 2, of a value whose bytes differ.
pub fn one_put() -> List {
    List::new().put(0, WIDE).steps(0, 17)
}

/// Two operations, one after the other, whole at p = 2.
pub fn put_and_take() -> List {
    one_put().take(1).steps(1, 17)
}

/// Number 5 after a begin of process 0: each byte that must be zero, each kind and each process.
fn ill_formed() -> Vec<Row> {
    let mut rows = Vec::new();
    // A step of 0, and a put and a take of 1, which would be taken if they were well-formed.
    for (name, record) in [("step", [0, 0]), ("put", [1, 1]), ("take", [1, 2])] {
        let from = if name == "put" { 2..4 } else { 2..8 };
        for at in from {
            let mut record = [record[0], record[1], 0, 0, 0, 0, 0, 0];
            record[at] = 1 << (at - 2);
            let list = then(List::new().put(0, 7), record);
            rows.push(Call::ample(2, 1, list).row(format!("a {name} with byte {at} not zero")));
        }
    }
    for kind in [3, 4, 128, 255] {
        let list = then(List::new().put(0, 7), [1, kind, 0, 0, 0, 0, 0, 0]);
        rows.push(Call::ample(2, 1, list).row(format!("kind {kind}")));
    }
    for p in [2, 4, 8] {
        for process in [p - 1, p, p + 1, 255] {
            let list = then(List::new().put(0, 7), [process, 1, 0, 0, 1, 2, 3, 4]);
            let call = Call::ample(u32::from(p), 1, list);
            rows.push(call.row(format!("p = {p}, a put of process {process}")));
        }
    }
    rows
}

/// 5 before 6, 7, 8 and 9.
fn ill_formed_first() -> Vec<Row> {
    let bad_put = [0, 1, 1, 0, 0, 0, 0, 0];
    let bad_take = [0, 2, 0, 0, 1, 0, 0, 0];
    let kind_3 = [0, 3, 0, 0, 0, 0, 0, 0];
    let bad_step = [0, 0, 0, 0, 0, 0, 0, 1];
    let no_room = Call::ample(2, 1, then(List::new().put(0, 1).steps(0, 16), bad_step));
    let no_room = no_room.with(|call| call.answers.truncate(15));
    vec![
        Call::ample(2, 2, then(List::new().put(0, 7), bad_put)).row("5 before 6"),
        Call::ample(2, 1, then(List::new().put(0, 7), bad_put)).row("5 before 8 and 6"),
        Call::ample(2, 1, then(List::new(), bad_step)).row("5 before 7"),
        Call::ample(2, 1, then(one_put(), bad_put)).row("5 before 8"),
        Call::ample(2, 1, then(one_put(), bad_take)).row("5 before 8, a take with a value"),
        Call::ample(2, 1, then(one_put(), kind_3)).row("5 before 8, kind 3"),
        no_room.row("5 before 9"),
    ]
}

/// Number 6: by a put and by a take, at each stage.
fn begins_while_busy() -> Vec<Row> {
    let mut rows = Vec::new();
    for steps in [0, 1, 16] {
        let busy = List::new().put(0, 7).steps(0, steps);
        let again = Call::ample(2, 2, busy.clone().put(0, 8).bytes());
        rows.push(again.row(format!("a put after {steps} steps")));
        let take = Call::ample(2, 2, busy.take(0).bytes());
        rows.push(take.row(format!("a take after {steps} steps")));
    }
    for p in [4, 8] {
        let list = List::new().put(p - 1, 7).take(p - 1);
        rows.push(Call::ample(p, 2, list.bytes()).row(format!("p = {p}, a take while busy")));
    }
    rows
}

/// Number 7: at the start, beside a busy process, and after the last operation.
fn steps_while_idle() -> Vec<Row> {
    let beside = List::new().put(0, 7).steps(1, 1);
    let mut rows = vec![
        Call::ample(2, 1, List::new().steps(0, 1).bytes()).row("a step first"),
        Call::ample(2, 1, beside.bytes()).row("a step beside a busy process"),
        Call::ample(2, 2, one_put().steps(0, 1).bytes()).row("a step after a put"),
        Call::ample(2, 1, one_put().steps(0, 1).bytes()).row("a step after the last put"),
    ];
    for p in [4, 8] {
        let list = List::new().take(0).steps(p - 1, 1);
        rows.push(Call::ample(p, 1, list.bytes()).row(format!("p = {p}, a step while idle")));
    }
    rows
}

/// Number 8: by a put and by a take; the other process may still begin.
fn begun_all() -> Vec<Row> {
    let twice = one_put().take(0).steps(0, 17);
    let of_four = List::new().take(3).steps(3, 31).put(3, 1);
    vec![
        Call::ample(2, 1, one_put().put(0, 2).bytes()).row("L = 1, a second put"),
        Call::ample(2, 1, one_put().take(0).bytes()).row("L = 1, a second take"),
        Call::ample(2, 1, one_put().take(1).bytes()).row("L = 1, a take of the other"),
        Call::ample(2, 2, twice.clone().put(0, 2).bytes()).row("L = 2, a third put"),
        Call::ample(2, 3, twice.put(0, 2).bytes()).row("L = 3, a third put"),
        Call::ample(4, 1, of_four.bytes()).row("p = 4, L = 1, a second put"),
    ]
}

/// 8 before 6: a begin inside the last operation of L, by a put and by a take, at each stage.
fn begun_all_first() -> Vec<Row> {
    let mut rows = Vec::new();
    for steps in [0, 1, 16] {
        let busy = List::new().put(0, 7).steps(0, steps);
        let lists = [("put", busy.clone().put(0, 8)), ("take", busy.take(0))];
        for (kind, list) in lists {
            let call = Call::ample(2, 1, list.bytes());
            rows.push(call.row(format!("8 before 6: L = 1, a {kind} after {steps} steps")));
        }
    }
    let second = one_put().take(0).steps(0, 3).put(0, 8);
    rows.push(Call::ample(2, 2, second.bytes()).row("8 before 6: L = 2"));
    for p in [4, 8] {
        let list = List::new().put(p - 1, 7).take(p - 1);
        rows.push(Call::ample(p, 1, list.bytes()).row(format!("8 before 6: p = {p}, L = 1")));
    }
    rows
}

/// The same after many operations, which takes the prover long.
pub fn many_begun_first() -> Row {
    let list = List::new().whole_puts(0, 23, 17).put(0, 7).put(0, 8);
    Call::ample(2, 24, list.bytes()).row("8 before 6: L = 24")
}

/// Number 9, on either side of its edge; what the other calls meet in the later records.
fn no_room() -> Vec<Row> {
    let mut rows = Vec::new();
    let call = Call::ample(2, 1, put_and_take().bytes());
    for bytes in [0, 15, 16, 31, 32] {
        let short = call.with(|call| call.answers.truncate(bytes));
        rows.push(short.row(format!("{bytes} answer bytes for two answers")));
    }
    let busy = one_put().put(1, 2).put(1, 3).bytes();
    let later = [
        ("an ill-formed record", 1, then(one_put(), [9; 8])),
        ("a begin too many", 1, one_put().put(0, 2).bytes()),
        ("a step while idle", 1, one_put().steps(1, 1).bytes()),
        ("a begin while busy", 2, busy.clone()),
        ("a begin inside the last operation", 1, busy),
    ];
    for (fault, l, list) in later {
        let call = Call::ample(2, l, list).with(|call| call.answers.clear());
        rows.push(call.row(format!("no answer bytes, then {fault}")));
    }
    rows
}

/// Number 10, on either side of its edge.
fn short_output() -> Vec<Row> {
    let lists = [
        ("no operation", List::new().put(0, 1).steps(0, 10)),
        ("one, not finished", List::new().put(0, 1).steps(0, 16)),
        ("two", put_and_take()),
    ];
    let mut rows = Vec::new();
    for (operations, list) in lists {
        let call = Call::ample(2, 1, list.bytes());
        for bytes in [0, 7, 8, 15, 16] {
            let short = call.with(|call| call.output = kept_bytes(bytes));
            rows.push(short.row(format!("{bytes} output bytes for {operations}")));
        }
    }
    rows
}

/// 10 after 1 to 8.
fn output_last() -> Vec<Row> {
    let none_of = |l, list: Vec<u8>| Call::ample(2, l, list).with(|call| call.output.clear());
    let none = |list| none_of(1, list);
    let whole = none(one_put().bytes());
    vec![
        whole.with(|call| call.p = 3).row("1 before 10"),
        whole.with(|call| call.l = 0).row("2 before 10"),
        whole
            .with(|call| call.table.truncate(48))
            .row("3 before 10"),
        whole
            .with(|call| call.records.truncate(143))
            .row("4 before 10"),
        none(then(one_put(), [9; 8])).row("5 before 10"),
        none_of(2, one_put().put(1, 1).put(1, 2).bytes()).row("6 before 10"),
        none(one_put().steps(1, 1).bytes()).row("7 before 10"),
        none(one_put().put(0, 2).bytes()).row("8 before 10"),
    ]
}
