//! The calls, each made of a compiled library and of the reference on equal buffers.
//!
//! A call returns what both gave; it panics where they differ.

use crate::buffers::{bytes, words, Buffer};
use otq::{Refusal, Verdict};
use reference::check::{self, CheckResult};
use reference::desk::{self, DeskResult, TERM_BYTES};
use reference::forecast::{self, ForecastResult};
use reference::list::{self, ListResult};
use reference::price::{price_deliveries, PriceResult};
use reference::run::{self, RunResult};

/// The input of a call.
#[derive(Clone, Copy)]
pub struct Input<'a> {
    pub p: u32,
    pub l: u32,
    pub records: &'a [u8],
}

/// What the desk left of a call: its result, the terms, and the words lent.
pub struct Delivered {
    pub result: DeskResult,
    pub terms: Vec<u32>,
    pub table: Vec<u32>,
}

/// What a call left: its result, the work table, and the answer or output bytes.
#[derive(PartialEq, Eq)]
struct Left<R> {
    result: R,
    table: Buffer<u32>,
    bytes: Buffer<u8>,
}

/// What a call leaves of buffers of these lengths.
fn left_of<R>(
    table: usize,
    output: usize,
    call: impl FnOnce(&mut [u32], &mut [u8]) -> R,
) -> Left<R> {
    let (mut table, mut bytes) = (words(table), bytes(output));
    let result = call(table.lent(), bytes.lent());
    Left {
        result,
        table,
        bytes,
    }
}

impl Input<'_> {
    /// Run, on a table and answer bytes of these lengths; its answers too.
    pub fn run(self, table: usize, answers: usize) -> (RunResult, Vec<u8>) {
        let Input { p, l, records } = self;
        self.run_by(table, answers, |table, answers| {
            let run = otq::run(p, l, records, table, answers);
            RunResult {
                refusal: number(run.refusal),
                taken: run.taken,
                answers: run.answers,
            }
        })
    }

    /// As `run`, where the library's Run is called by the caller.
    pub fn run_by(
        self,
        table: usize,
        answers: usize,
        library: impl FnOnce(&mut [u32], &mut [u8]) -> RunResult,
    ) -> (RunResult, Vec<u8>) {
        let Input { p, l, records } = self;
        let told = || self.told("run", table, answers);
        let found = left_of(table, answers, library);
        let expected = left_of(table, answers, |table, answers| {
            run::run(p, l, records, table, answers)
        });
        let mut left = same(found, expected, told);
        let written = 16 * left.result.answers as usize;
        (left.result, left.bytes.lent()[..written].to_vec())
    }

    /// List the order, on a table and an output of these lengths.
    pub fn list_order(self, table: usize, output: usize) -> ListResult {
        let Input { p, l, records } = self;
        let told = || self.told("list_order", table, output);
        let found = left_of(table, output, |table, output| {
            match otq::list_order(p, l, records, table, output) {
                Ok(length) => ListResult { refusal: 0, length },
                Err(refusal) => ListResult {
                    refusal: refusal.number(),
                    length: 0,
                },
            }
        });
        let expected = left_of(table, output, |table, output| {
            list::list_order(p, l, records, table, output)
        });
        same(found, expected, told).result
    }

    /// Check a log, on a table of this length.
    pub fn check_log(self, table: usize, log: &[u8]) -> CheckResult {
        let Input { p, l, records } = self;
        let told = || self.told("check_log", table, log.len());
        let found = left_of(table, 0, |table, _| {
            let (refusal, verdict, index) = match otq::check_log(p, l, records, log, table) {
                Verdict::Same => (0, 0, 0),
                Verdict::Differs(index) => (0, 1, index),
                Verdict::Refused(refusal) => (refusal.number(), 2, 0),
            };
            CheckResult {
                refusal,
                verdict,
                index,
            }
        });
        let expected = left_of(table, 0, |table, _| {
            check::check_log(p, l, records, log, table)
        });
        same(found, expected, told).result
    }

    /// The desk with this process licensed, on a table and an output of these lengths.
    pub fn deliver(self, licensed: u32, table: usize, output: usize) -> Delivered {
        let Input { p, l, records } = self;
        let told = || self.told(&format!("deliver, {licensed} licensed"), table, output);
        let found = left_of(table, output, |table, output| {
            let delivery = dictionary::deliver(p, l, licensed, records, table, output);
            DeskResult {
                refusal: delivery.refusal.map_or(0, dictionary::Refusal::number),
                count: delivery.count,
            }
        });
        let expected = left_of(table, output, |table, output| {
            desk::deliver(p, l, licensed, records, table, output)
        });
        let mut left = same(found, expected, told);
        let sent = TERM_BYTES * left.result.count as usize;
        Delivered {
            result: left.result,
            terms: desk::terms_sent(&left.bytes.lent()[..sent]),
            table: left.table.lent().to_vec(),
        }
    }

    /// The forecast; the records are begins.
    pub fn forecast(self) -> ForecastResult {
        let Input { p, l, records } = self;
        let found = match otq::forecast(p, l, records) {
            Ok(foreseen) => ForecastResult {
                refusal: 0,
                words: foreseen.words,
                answer_bytes: foreseen.answer_bytes,
                records: foreseen.records,
            },
            Err(refusal) => ForecastResult {
                refusal: refusal.number(),
                ..ForecastResult::default()
            },
        };
        let expected = forecast::forecast(p, l, records);
        assert_eq!(found, expected, "forecast: p {p}, l {l}, {records:?}");
        expected
    }

    fn told(self, call: &str, words: usize, bytes: usize) -> String {
        let Input { p, l, records } = self;
        let length = records.len();
        format!("{call}: p {p}, l {l}, {length} record bytes, {words} words, {bytes} bytes")
    }
}

/// The price of so many deliveries by a sheet.
pub fn price(count: u32, sheet: &[u8]) -> PriceResult {
    let total = dictionary::price::deliveries(count, sheet);
    let found = PriceResult {
        refusal: total.refusal.map_or(0, dictionary::price::Refusal::number),
        cents: total.cents,
        remainder: total.remainder,
    };
    let expected = price_deliveries(count, sheet);
    assert_eq!(found, expected, "price: {count} deliveries, {sheet:?}");
    expected
}

fn number(refusal: Option<Refusal>) -> u32 {
    refusal.map_or(0, Refusal::number)
}

fn same<R: PartialEq + std::fmt::Debug>(
    found: Left<R>,
    expected: Left<R>,
    told: impl Fn() -> String,
) -> Left<R> {
    assert_eq!(found.result, expected.result, "{}", told());
    assert!(found.table == expected.table, "{}: other words", told());
    assert!(found.bytes == expected.bytes, "{}: other bytes", told());
    expected
}
