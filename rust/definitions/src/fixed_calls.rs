//! Fixed calls that are turned down before their records, and calls on either side of each edge.

use crate::call::{kept_bytes, kept_words, Call};
use crate::row::Row;
use crate::{fixed_bytes, fixed_logs, fixed_records, late_begins};
use reference::between_reads::between_reads;
use reference::help_lists::{help_lists, most_helped, HelpList};
use reference::lists::List;
use reference::process::StepName;
use reference::schedules::{schedule, Pace, Plan};
use reference::tree::Shape;

/// Calls that meet every number and verdict, each edge of a test, and the order of the tests; records
/// whose bytes are all in use; operations that come between the reads of another; and helps.
pub fn rows() -> Vec<Row> {
    [
        wrong_processes(),
        wrong_limits(),
        allowed_limits(),
        short_tables(),
        torn_records(),
        fixed_records::rows(),
        late_begins::rows(),
        fixed_logs::rows(),
        fixed_bytes::rows(),
        between(),
        helps(),
    ]
    .into_iter()
    .flatten()
    .collect()
}

/// A put of process 0 and one step: what a call that is turned down must not play.
fn short_list() -> Vec<u8> {
    List::new().put(0, 7).steps(0, 1).bytes()
}

/// A later test that fails too.
type Fault = (&'static str, fn(&mut Call));

/// Faults that the tests 2, 3, 4, 11 and those of the first record find, in that order.
const FAULTS: [Fault; 5] = [
    ("L = 0", |call| call.l = 0),
    ("no table", |call| call.table.clear()),
    ("torn records", |call| call.records.truncate(15)),
    ("a torn log", |call| call.log = kept_bytes(15)),
    ("an ill-formed record", |call| call.records[2] = 1),
];

/// The call with each of the faults from one on alone, and with all of them.
fn with_faults(call: &Call, about: &str, from: usize) -> Vec<Row> {
    let mut rows = Vec::new();
    let mut all = call.clone();
    for (fault, make) in &FAULTS[from..] {
        rows.push(call.with(make).row(format!("{about}, and {fault}")));
        make(&mut all);
    }
    rows.push(all.row(format!("{about}, and all later faults")));
    rows
}

/// Number 1. The buffers are those of p = 8, for which no p here is too large.
fn wrong_processes() -> Vec<Row> {
    let call = Call::ample(8, 1, short_list());
    let mut rows = Vec::new();
    for p in [0, 1, 3, 5, 6, 7, 9, 16, 501, u32::MAX] {
        rows.push(call.with(|call| call.p = p).row(format!("p = {p}")));
    }
    rows.extend(with_faults(&call.with(|call| call.p = 3), "p = 3", 0));
    rows
}

/// Number 2.
fn wrong_limits() -> Vec<Row> {
    let mut rows = Vec::new();
    for p in [2, 4, 8] {
        let call = Call::ample(p, 1, short_list());
        for l in [0, 501, 512, u32::MAX] {
            rows.push(
                call.with(|call| call.l = l)
                    .row(format!("p = {p}, L = {l}")),
            );
        }
        let many = call.with(|call| call.l = 501);
        rows.extend(with_faults(&many, &format!("p = {p}, L = 501"), 1));
    }
    rows
}

/// L at the edges of what is allowed, and on either side of the printing program's 24.
fn allowed_limits() -> Vec<Row> {
    let mut rows = edge_of(2, 500);
    for p in [2, 4, 8] {
        rows.extend([1, 24, 25].into_iter().flat_map(|l| edge_of(p, l)));
    }
    rows
}

/// The largest tables and the most helps, which take the prover long.
pub fn largest() -> Vec<Row> {
    let mut rows = Vec::new();
    for p in [4, 8] {
        rows.extend(edge_of(p, 500));
        let call = Call::ample(p, 2 * p.ilog2(), most_helped(p).bytes());
        rows.push(call.row(format!("p = {p}, the most helps")));
    }
    rows
}

/// Lists that meet those branches of the steps that the other fixed calls do not.
pub fn branches() -> Vec<Row> {
    let stalls = |step| Pace::Stalls { step, after: false };
    let plans = [
        Plan::new(2, 1, stalls(StepName::V1), 699).puts_of_8(6),
        Plan::new(2, 2, stalls(StepName::R3), 89).puts_of_8(6),
        Plan::new(4, 1, Pace::Bursts(9), 187).puts_of_8(6),
        Plan::new(4, 2, stalls(StepName::R5), 535),
    ];
    let row = |plan: Plan| {
        let call = Call::ample(plan.p, plan.l, schedule(&plan));
        call.row(format!("branches: p = {}, {:?}", plan.p, plan.pace))
    };
    plans.map(row).into()
}

/// A word too few refuses with 3, and with no word too few the records are met: the second of them
/// is refused, since listing even an empty order of a large table takes the prover long.
fn edge_of(p: u32, l: u32) -> Vec<Row> {
    let needed = Shape::new(p, l).expect("a proper shape").words_needed();
    let call = Call::ample(p, l, List::new().put(0, 7).steps(1, 1).bytes());
    let words = |words| call.with(|call| call.table = kept_words(words));
    vec![
        words(needed - 1).row(format!("p = {p}, L = {l}, a word too few")),
        words(needed).row(format!("p = {p}, L = {l}, no word too few")),
    ]
}

/// Number 3.
fn short_tables() -> Vec<Row> {
    let mut rows = Vec::new();
    for (p, l) in [(2, 1), (2, 3), (4, 2), (8, 1)] {
        let call = Call::ample(p, l, short_list());
        rows.push(call.row(format!("p = {p}, L = {l}, 3 words more than needed")));
        let needed = call.table.len() - 3;
        let exact = call.with(|call| call.table.truncate(needed));
        rows.push(exact.row(format!("p = {p}, L = {l}, the words needed")));
        let short = call.with(|call| call.table.truncate(needed - 1));
        let about = format!("p = {p}, L = {l}, a word too few");
        rows.push(short.row(&about));
        rows.extend(with_faults(&short, &about, 2));
    }
    rows
}

/// Heads that rise between the reads of a refresh.
pub fn between() -> Vec<Row> {
    let row = |(about, list): (&str, List)| Call::ample(2, 1, list.bytes()).row(about);
    between_reads().map(row).into()
}

/// Heads of children that a refresh moves or finds moved.
pub fn helps() -> Vec<Row> {
    let row = |fixed: HelpList| {
        let call = Call::ample(fixed.p, fixed.l, fixed.list.bytes());
        call.row(format!("helps: {}", fixed.about))
    };
    help_lists().map(row).into()
}

/// Number 4: every number of bytes up to two records.
fn torn_records() -> Vec<Row> {
    let mut rows = Vec::new();
    let call = Call::ample(2, 1, short_list());
    for bytes in 0..=16 {
        let torn = call.with(|call| call.records.truncate(bytes));
        rows.push(torn.row(format!("{bytes} record bytes")));
    }
    for p in [2, 4, 8] {
        let call = Call::ample(p, 1, short_list());
        let torn = call.with(|call| call.records.truncate(15));
        rows.extend(with_faults(&torn, &format!("p = {p}, 15 record bytes"), 3));
    }
    rows
}
