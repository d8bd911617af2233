//! Forecasts: sums, each number at its edge, the order of the tests, and random begins.

use crate::decimal::bytes;
use crate::met::Met;
use crate::row::{Row, Statement};
use reference::begin_lists::BeginList;
use reference::forecast::{begins_of, forecast};
use reference::known_runs::{m3, m5, m6};
use reference::lists::List;
use reference::random::Random;

/// A row for each forecast that meets a number, an edge or an order of two tests.
pub fn rows() -> Vec<Row> {
    [
        sums(),
        wrong_processes(),
        wrong_limits(),
        torn(),
        ill_formed(),
        pairs(),
        steps_among(),
        up_to_l(),
        past_l(),
        lists(),
    ]
    .into_iter()
    .flatten()
    .collect()
}

/// A proper list, or one with something wrong.
pub fn random_row(random: &mut Random, p: u32, l: u32) -> Row {
    let list = BeginList::hostile(random, p, l.min(4), 12);
    row("random begins", list.p, list.l, &list.begins)
}

/// The begins of a list and their forecast.
pub fn row_of_list(p: u32, l: u32, records: &[u8]) -> Row {
    let begins = begins_of(records);
    let mut row = row("the begins of the list", p, l, &begins);
    row.statements.push(Statement::equal(
        "begins",
        &format!("begin_records (step_records {})", bytes(records)),
        &format!("step_records {}", bytes(&begins)),
    ));
    row
}

/// The theorem that the definition gives what the reference gives.
fn row(about: &str, p: u32, l: u32, begins: &[u8]) -> Row {
    let told = forecast(p, l, begins);
    let right = [
        u64::from(told.refusal),
        told.words,
        told.answer_bytes,
        told.records,
    ];
    let right = right.map(|number| number.to_string()).join(" ");
    let mut met = vec![Met::new("forecast", told.refusal)];
    if told.records > 0 {
        met.push(Met::new("foreseen", format!("p={p}")));
    }
    let count = begins.len() / 8;
    let theorem = Statement::equal(
        "forecast",
        &format!("forecast {p} {l} {}", bytes(begins)),
        &format!("foretold {right}"),
    );
    Row {
        about: format!("{about}, p = {p}, L = {l}, {count} records"),
        met,
        statements: vec![theorem],
    }
}

/// A put of the last process, whose value has every byte.
fn one_put(p: u32) -> List {
    List::new().put(p - 1, crate::fixed_bytes::WIDE)
}

/// The list with more records, given by their bytes.
fn then(list: List, records: &[[u8; 8]]) -> Vec<u8> {
    [list.bytes(), records.concat()].concat()
}

/// No begins, one, and some of each process, at each height and at the edges of L.
fn sums() -> Vec<Row> {
    let mut rows = Vec::new();
    for p in [2, 4, 8] {
        for l in [1, 2, 24, 499, 500] {
            rows.push(row("no begins", p, l, &[]));
            rows.push(row("a begin", p, l, &one_put(p).bytes()));
        }
        rows.push(row("all begins", p, 1, &List::begins_in_turn(p, 1).bytes()));
        rows.push(row("all begins", p, 3, &List::begins_in_turn(p, 3).bytes()));
        rows.push(row("begins", p, 24, &List::begins_in_turn(p, 3).bytes()));
    }
    rows
}

/// What the tests 4, 5, 12 and 8 find, and nothing.
fn faults(p: u32) -> [Vec<u8>; 5] {
    let put = one_put(p).bytes();
    [
        put.clone(),
        put[..7].to_vec(),
        vec![255; 8],
        vec![0; 8],
        put.repeat(2),
    ]
}

/// Number 1, with and without what later tests find.
fn wrong_processes() -> Vec<Row> {
    let mut rows = Vec::new();
    for p in [0, 1, 3, 5, 6, 7, 9, 16, 501, u32::MAX] {
        rows.push(row("1", p, 1, &one_put(1).bytes()));
        rows.push(row("1 before 2", p, 0, &[]));
    }
    for l in [1, 0, 501] {
        let lists = faults(2);
        rows.extend(lists.iter().map(|list| row("1 first", 3, l, list)));
    }
    rows
}

/// Number 2, with and without what later tests find.
fn wrong_limits() -> Vec<Row> {
    let mut rows = Vec::new();
    for p in [2, 4, 8] {
        for l in [0, 501, 512, u32::MAX] {
            rows.push(row("2", p, l, &[]));
        }
        for l in [0, 501] {
            let lists = faults(p);
            rows.extend(lists.iter().map(|list| row("2 first", p, l, list)));
        }
    }
    rows
}

/// Number 4: every number of bytes up to two records, of begins and of what later tests find.
fn torn() -> Vec<Row> {
    let mut rows = Vec::new();
    for bytes in 0..=16 {
        let list = &List::begins_in_turn(2, 1).bytes()[..bytes];
        rows.push(row(&format!("{bytes} bytes"), 2, 1, list));
    }
    for p in [2, 4, 8] {
        for list in faults(p) {
            let torn = [&list[..], &[1; 9][..1 + list.len() % 8]].concat();
            rows.push(row("4 first", p, 1, &torn));
        }
    }
    rows
}

/// Number 5: each byte that must be zero, each kind and each process; of a step before 12, of a
/// begin past L before 8.
fn ill_formed() -> Vec<Row> {
    let mut rows = Vec::new();
    for kind in 0..3 {
        for at in 2..8 {
            let mut record = [1, kind, 0, 0, 0, 0, 0, 0];
            record[at] = 1 << (at - 2);
            let about = format!("kind {kind} with byte {at} not zero");
            rows.push(row(&about, 2, 1, &then(List::new().put(0, 7), &[record])));
            rows.push(row(&about, 2, 1, &then(List::new().take(1), &[record])));
        }
    }
    for kind in [3, 4, 128, 255] {
        let record = [1, kind, 0, 0, 0, 0, 0, 0];
        rows.push(row(&format!("kind {kind}"), 2, 1, &record));
    }
    for p in [2, 4, 8] {
        for process in [p - 1, p, p + 1, 255] {
            for kind in 0..3 {
                let record = [process, kind, 0, 0, 0, 0, 0, 0];
                let about = format!("kind {kind} of process {process}");
                rows.push(row(&about, u32::from(p), 1, &record));
            }
        }
    }
    rows
}

/// Of two records that are refused, the earlier gives the number.
fn pairs() -> Vec<Row> {
    let bad = [
        ("5", [2, 1, 0, 0, 0, 0, 0, 0]),
        ("5, a step", [0, 0, 0, 0, 1, 0, 0, 0]),
        ("12", [0; 8]),
        ("8", [0, 2, 0, 0, 0, 0, 0, 0]),
    ];
    let mut rows = Vec::new();
    for (first, earlier) in bad {
        for (second, later) in bad {
            let about = format!("{first} before {second}");
            let list = then(List::new().put(0, 7), &[earlier, later]);
            rows.push(row(&about, 2, 1, &list));
        }
    }
    rows
}

/// Number 12: first, between and last, by a process that begins none, some or L.
fn steps_among() -> Vec<Row> {
    let mut rows = Vec::new();
    for (p, process) in [(2, 0), (2, 1), (4, 3), (8, 7)] {
        let (none, one) = (List::new(), List::new().put(0, 1));
        for before in [none, one.clone(), one.take(p - 1)] {
            let list = before.steps(process, 1).put(p / 2, 3);
            rows.push(row("a step among", p, 1, &list.bytes()));
        }
    }
    rows
}

/// L begins and one more, of one process alone and with begins of others between.
fn up_to_l() -> Vec<Row> {
    let mut rows = Vec::new();
    for (p, l) in [(2, 1), (2, 2), (2, 3), (4, 2), (8, 2), (2, 24), (8, 24)] {
        for begun in [l, l + 1] {
            let alone = (0..begun).fold(List::new(), |list, value| list.put(p - 1, value));
            rows.push(row("begins of one", p, l, &alone.bytes()));
            let mixed = (0..begun).fold(List::new(), |list, turn| match turn % 2 {
                0 => list.take(p - 1).put(0, turn),
                _ => list.put(p - 1, turn),
            });
            rows.push(row("begins of two", p, l, &mixed.bytes()));
        }
    }
    rows
}

/// Number 8 after all have begun L, by each process, and each kind.
fn past_l() -> Vec<Row> {
    let mut rows = Vec::new();
    for p in [2, 4, 8] {
        for process in [0, p / 2, p - 1] {
            let all = List::begins_in_turn(p, 2);
            rows.push(row("past L", p, 2, &all.clone().put(process, 0).bytes()));
            rows.push(row("past L", p, 2, &all.take(process).bytes()));
        }
    }
    rows
}

/// The begins of lists, of some with records that no run takes.
fn lists() -> Vec<Row> {
    let busy = List::new().put(0, 1).steps(0, 2).take(0).steps(1, 1);
    let kind_3 = then(
        busy.clone(),
        &[[0, 3, 0, 0, 0, 0, 0, 0], [9; 8], [9, 0, 1, 2, 3, 4, 5, 6]],
    );
    let torn = [busy.clone().bytes(), vec![0, 1, 0, 0, 7, 0, 0]].concat();
    vec![
        row_of_list(2, 1, &[]),
        row_of_list(2, 1, &List::new().steps(0, 3).bytes()),
        row_of_list(2, 24, &m3().bytes()),
        row_of_list(4, 24, &m5().bytes()),
        row_of_list(8, 24, &m6(7, 0).bytes()),
        row_of_list(2, 2, &busy.clone().bytes()),
        row_of_list(2, 1, &busy.bytes()),
        row_of_list(2, 2, &kind_3),
        row_of_list(2, 2, &torn),
    ]
}

/// At the largest L, which takes the prover long.
pub fn largest() -> Vec<Row> {
    let whole = |count| (0..count).fold(List::new(), |list, value| list.put(0, value));
    vec![
        row("the largest L", 2, 500, &whole(500).bytes()),
        row("past the largest L", 2, 500, &whole(501).bytes()),
    ]
}
