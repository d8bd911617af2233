//! Calls of the desk: lists worked by hand, each number at its edge, the order of the tests, and random
//! calls.

use crate::call::{kept_bytes, kept_words};
use crate::decimal::{bytes, words};
use crate::desk_order;
use crate::faults::{self, Fault};
use crate::met::Met;
use crate::random_calls::{ending, pace};
use crate::row::{Row, Statement};
use reference::desk::{deliver, DeskResult, TERM_BYTES};
use reference::desk_calls::DeskCall;
use reference::desk_cases::DESK_CASES;
use reference::desk_lists::{entry, refused, taken, DeskList};
use reference::desk_order::takes_received;
use reference::lists::List;
use reference::random::Random;
use reference::schedules::Plan;
use reference::tree::Shape;

/// The desk's own definitions that the prover computes with.
pub const ALSO: &str = " desk_rules delivered";

/// A call with what it is lent.
#[derive(Clone)]
struct Lent {
    call: DeskCall,
    table: Vec<u32>,
    output: Vec<u8>,
}

/// The fixed calls, and so many random ones of this seed.
pub fn rows(how_many: u64, seed: u64) -> Vec<Row> {
    [
        worked_by_hand(),
        desk_order::rows(),
        first_tests(),
        licences(),
        table_lengths(),
        output_lengths(),
        output_last(),
        random(how_many, seed),
    ]
    .into_iter()
    .flatten()
    .collect()
}

impl Lent {
    /// Some room to spare and no zero in it, for so many terms.
    fn ample(call: DeskCall, terms: usize) -> Lent {
        let needed = Shape::new(call.p, call.l).map_or(0, Shape::words_needed);
        Lent {
            call,
            table: kept_words(needed + 3),
            output: kept_bytes(TERM_BYTES * terms + 3),
        }
    }

    fn of(list: &DeskList) -> Lent {
        let call = DeskCall {
            p: list.p,
            l: list.l,
            licensed: list.licensed,
            records: list.records.clone(),
        };
        Lent::ample(call, list.terms.len())
    }

    /// The call with something changed.
    fn with(&self, change: impl FnOnce(&mut Lent)) -> Lent {
        let mut lent = self.clone();
        change(&mut lent);
        lent
    }

    /// The theorem that the definition leaves what the reference leaves.
    fn row(&self, about: impl Into<String>) -> Row {
        let DeskCall { p, l, licensed, .. } = self.call;
        let records = &self.call.records;
        let (mut table, mut output) = (self.table.clone(), self.output.clone());
        let left = deliver(p, l, licensed, records, &mut table, &mut output);
        let called = [
            format!("desk {p} {l} {licensed}"),
            bytes(records),
            words(&self.table),
            bytes(&self.output),
        ];
        let leaves = [
            format!("delivered {} {}", left.refusal, left.count),
            words(&table),
            bytes(&output),
        ];
        let theorem = Statement::equal("desk", &called.join(" "), &leaves.join(" "));
        Row {
            about: about.into(),
            met: self.met(left, &table),
            statements: vec![theorem.with(ALSO)],
        }
    }

    /// The number, and of a list that is taken the cases that it shows.
    fn met(&self, left: DeskResult, table: &[u32]) -> Vec<Met> {
        let mut met = vec![Met::new("desk", left.refusal)];
        if left.refusal != 0 {
            return met;
        }
        let shape = Shape::new(self.call.p, self.call.l).expect("a proper shape");
        let received = takes_received(shape, &self.call.records, table);
        let shown = DESK_CASES.into_iter().filter(|x| x.is_shown(&received));
        met.extend(shown.map(|case| Met::new("delivery", case.name())));
        let terms = TERM_BYTES * left.count as usize;
        if terms > 0 && terms < self.output.len() {
            met.push(Met::new("delivery", "bytes past the terms"));
        }
        met
    }
}

fn worked_by_hand() -> Vec<Row> {
    let lists = [taken(), refused()].concat();
    let row = |list: &DeskList| Lent::of(list).row(format!("the desk: {}", list.about));
    lists.iter().map(row).collect()
}

/// The list worked by hand that is about this.
fn by_hand(about: &str) -> Lent {
    let mut lists = taken().into_iter();
    Lent::of(
        &lists
            .find(|list| list.about == about)
            .expect("a fixed list"),
    )
}

/// A put of an entry by process 0 and one step, which a call that is turned down must not play.
fn short_call(p: u32) -> Lent {
    let call = DeskCall {
        p,
        l: 1,
        licensed: 0,
        records: List::new().put(0, entry(7)).steps(0, 1).bytes(),
    };
    Lent::ample(call, 1)
}

/// By their numbers, in the order of the tests.
const FAULTS: [Fault<u32, Lent>; 6] = [
    (1, |lent| lent.call.p = 3),
    (2, |lent| lent.call.l = 501),
    (13, |lent| lent.call.licensed = 8),
    (3, |lent| lent.table.truncate(48)),
    (4, |lent| lent.call.records.truncate(15)),
    (14, |lent| lent.call.records[0] = 1),
];

fn first_tests() -> Vec<Row> {
    let calls = faults::first_tests(&short_call(2), &FAULTS);
    let row = |(about, lent): &(String, Lent)| lent.row(format!("the desk: {about}"));
    calls.iter().map(row).collect()
}

/// Number 13, on either side of its edge.
fn licences() -> Vec<Row> {
    let mut rows = Vec::new();
    for p in [2, 4, 8] {
        for licensed in [p - 1, p, p + 1, 255, 256, u32::MAX] {
            let call = short_call(p).with(|lent| lent.call.licensed = licensed);
            rows.push(call.row(format!("the desk: p = {p}, {licensed} licensed")));
        }
    }
    rows
}

/// Number 3, on either side of its edge.
fn table_lengths() -> Vec<Row> {
    let mut rows = Vec::new();
    for p in [2, 4, 8] {
        let call = short_call(p);
        let needed = call.table.len() - 3;
        for words in [0, needed - 1, needed, needed + 1] {
            let call = call.with(|lent| lent.table.truncate(words));
            rows.push(call.row(format!("the desk: p = {p}, {words} words")));
        }
    }
    rows
}

/// Number 10, on either side of its edge.
fn output_lengths() -> Vec<Row> {
    let mut rows = Vec::new();
    for (about, lengths) in [
        ("a take before its Q", &[0, 3][..]),
        ("a term whose bytes differ", &[0, 3, 4, 5]),
        ("an entry twice", &[0, 4, 7, 8, 12]),
    ] {
        for &length in lengths {
            let call = by_hand(about).with(|lent| lent.output = kept_bytes(length));
            rows.push(call.row(format!("the desk: {length} output bytes, {about}")));
        }
    }
    rows
}

/// Each number of a record before 10: there is a term and no output.
fn output_last() -> Vec<Row> {
    let received = by_hand("a term whose bytes differ");
    let busy = List::new().put(1, 7);
    let mut rows = Vec::new();
    for (number, l, last) in [
        (5, 1, vec![9; 8]),
        (6, 3, busy.clone().put(1, 7).bytes()),
        (7, 1, List::new().steps(1, 1).bytes()),
        (8, 2, busy.take(1).bytes()),
        (14, 2, List::new().put(1, entry(1)).bytes()),
    ] {
        let records = [&received.call.records[..], &last].concat();
        let call = DeskCall {
            l,
            records,
            ..received.call.clone()
        };
        let none = Lent::ample(call, 0).with(|lent| lent.output.clear());
        rows.push(none.row(format!("the desk: {number} before 10")));
    }
    rows
}

/// p, L, and how many operations each process begins.
const SHAPES: [(u32, u32, u32); 7] = [
    (2, 2, 2),
    (2, 3, 3),
    (4, 1, 1),
    (2, 1, 1),
    (4, 2, 2),
    (8, 1, 1),
    (2, 5, 5),
];

/// Lists of every pace; in at most two cases of three something is wrong. At times the output is short.
fn random(how_many: u64, seed: u64) -> Vec<Row> {
    let mut random = Random::new(seed);
    let mut rows = Vec::new();
    for row in 0..how_many {
        let (p, l, each) = SHAPES[row as usize % SHAPES.len()];
        let plan = Plan {
            each,
            puts_of_8: 4,
            ending: ending(&mut random, p, each),
            ..Plan::new(p, l, pace(&mut random, row), random.next())
        };
        let call = DeskCall::hostile(&mut random, &plan);
        let mut lent = Lent::ample(call, l as usize);
        if random.chance(1, 4) {
            lent.output.truncate(random.below(5) as usize);
        }
        rows.push(lent.row(format!("the desk: random, p = {p}, L = {l}")));
    }
    rows
}
