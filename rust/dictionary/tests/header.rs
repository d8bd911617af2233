//! The header for C and C++: each example compiled with it and run, linked with the archive of its call
//! alone, programs with all archives, and its numbers and sizes against the Rust functions.

use c_programs::{repository, written, Programs, STANDARDS};
use dictionary::price::{self, Band, MOST_BANDS, MOST_DELIVERIES, MOST_PRICE};
use dictionary::{most_output_bytes, table_words, Refusal, FIRST_ENTRY, TERM_BYTES};
use std::fs;
use std::path::PathBuf;
use std::process::Command;

const REFUSALS: [(&str, Refusal); 11] = [
    ("DESK_PROCESSES", Refusal::Processes),
    ("DESK_OPERATIONS", Refusal::Operations),
    ("DESK_TABLE_SHORT", Refusal::TableShort),
    ("DESK_RECORDS_TORN", Refusal::RecordsTorn),
    ("DESK_ILL_FORMED", Refusal::IllFormed),
    ("DESK_BEGIN_WHILE_BUSY", Refusal::BeginWhileBusy),
    ("DESK_STEP_WHILE_IDLE", Refusal::StepWhileIdle),
    ("DESK_BEGUN_ALL", Refusal::BegunAll),
    ("DESK_OUTPUT_SHORT", Refusal::OutputShort),
    ("DESK_LICENCE", Refusal::Licence),
    ("DESK_FOREIGN_ENTRY", Refusal::ForeignEntry),
];

const PRICE_REFUSALS: [(&str, price::Refusal); 4] = [
    ("PRICE_COUNT", price::Refusal::Count),
    ("PRICE_SHEET_TORN", price::Refusal::SheetTorn),
    ("PRICE_BANDS", price::Refusal::Bands),
    ("PRICE_TOO_HIGH", price::Refusal::PriceTooHigh),
];

fn programs(libraries: &'static [&'static str]) -> Programs {
    Programs {
        folder: PathBuf::from(env!("CARGO_TARGET_TMPDIR")),
        libraries,
    }
}

/// An example of the dictionary, linked with one archive, writes what is expected.
fn assert_example(libraries: &'static [&'static str], name: &str) {
    let example = repository().join("examples/dictionary");
    let expected = example.join(format!("{name}.expected"));
    let expected = fs::read_to_string(expected).expect("a text");
    for standard in STANDARDS {
        let source = example.join(format!("{name}.c"));
        let program = programs(libraries).program(standard, &[source]);
        assert_eq!(written(&mut Command::new(program)), expected, "{standard}");
    }
}

#[test]
fn the_example_of_the_desk() {
    assert_example(&["desk"], "deliver");
}

#[test]
fn the_example_of_the_price_sheet() {
    assert_example(&["price"], "price");
}

/// A program that uses all three products, and so needs all archives: a take of an entry, as an answer of
/// the queue, as a term, and as a delivery that costs.
const ALL: &str = "#include \"dictionary.h\"
#include \"otq.h\"
#include <inttypes.h>
#include <stdio.h>
int main(void)
{
    static uint8_t records[36 * DESK_STEP_BYTES] = {0, 1, 0, 0, 7, 0, 0, 128};
    static uint32_t table[DESK_TABLE_WORDS(2, 1)];
    uint8_t output[DESK_MOST_OUTPUT_BYTES(1)];
    uint8_t answers[OTQ_MOST_ANSWER_BYTES(2, 1)];
    static const uint8_t sheet[PRICE_BAND_BYTES] = {9, 0, 0, 0, 205, 0, 0, 0};
    OtqRun run;
    DeskDelivery delivery;
    PriceTotal total;
    size_t at;
    for (at = 18 * DESK_STEP_BYTES; at < sizeof records; at += DESK_STEP_BYTES) {
        records[at] = 1;
    }
    records[18 * DESK_STEP_BYTES + 1] = 2;
    run = otq_run(2, 1, records, sizeof records, table, DESK_TABLE_WORDS(2, 1), answers, sizeof answers);
    delivery = desk_deliver(2, 1, 0, records, sizeof records, table, DESK_TABLE_WORDS(2, 1), output,
                            sizeof output);
    total = price_deliveries(1, sheet, sizeof sheet);
    printf(\"%\" PRIu32 \" %\" PRIu64 \" %d %d\\n\", run.refusal, run.answers, answers[20], answers[23]);
    printf(\"%\" PRIu32 \" %\" PRIu64 \" %d %d\\n\", delivery.refusal, delivery.count, output[0], output[3]);
    printf(\"%\" PRIu32 \" %\" PRIu32 \" %\" PRIu32 \"\\n\", total.refusal, total.cents, total.remainder);
    return 0;
}
";

#[test]
fn three_products_in_one_program() {
    let expected = "0 2 7 128\n0 1 7 0\n0 2 5\n";
    for libraries in [&["desk", "queue", "price"], &["price", "queue", "desk"]] {
        programs(libraries).assert_writes("all.c", ALL, expected);
    }
}

/// The names of an archive that programs see: those that it offers, or those that it asks for.
fn named(library: &str, which: &str) -> Vec<String> {
    let archive = repository().join(format!("target/staticlib/lib{library}.a"));
    let mut nm = Command::new("nm");
    nm.args(["--extern-only", "--format=just-symbols", which]);
    let names = written(nm.arg(&archive));
    let names = names
        .lines()
        .filter(|line| !line.is_empty() && !line.ends_with(':'));
    names.map(str::to_string).collect()
}

/// Each archive offers its one function. The desk's asks for two functions of every C library, and that of
/// the price sheet for nothing.
#[test]
fn names_of_the_archives() {
    let none: [&str; 0] = [];
    assert_eq!(named("desk", "--defined-only"), ["desk_deliver"]);
    assert_eq!(named("desk", "--undefined-only"), ["memcpy", "memset"]);
    assert_eq!(named("price", "--defined-only"), ["price_deliveries"]);
    assert_eq!(named("price", "--undefined-only"), none);
}

/// The bytes of stack that a call of the price sheet stays below, by the header.
const PRICE_STACK: usize = 500;

/// A program that calls the price sheet on a stack of its own, with as much to do as there can be, and
/// writes how many bytes of it were touched.
const ON_OWN_STACK: &str = "#define _XOPEN_SOURCE 700
#include \"dictionary.h\"
#include <inttypes.h>
#include <stdio.h>
#include <string.h>
#include <ucontext.h>
enum { UNTOUCHED = 165 };
static uint8_t stack[65536];
static uint8_t sheet[PRICE_MOST_BANDS * PRICE_BAND_BYTES];
static ucontext_t caller, callee;
static PriceTotal total;
static void call(void)
{
    total = price_deliveries(PRICE_MOST_DELIVERIES, sheet, sizeof sheet);
}
int main(void)
{
    size_t at;
    for (at = 0; at < sizeof sheet; at++) {
        sheet[at] = (uint8_t)(at % 4 == 0 ? at + 1 : 0);
    }
    memset(stack, UNTOUCHED, sizeof stack);
    getcontext(&callee);
    callee.uc_stack.ss_sp = stack;
    callee.uc_stack.ss_size = sizeof stack;
    callee.uc_link = &caller;
    makecontext(&callee, call, 0);
    swapcontext(&caller, &callee);
    at = 0;
    while (at < sizeof stack && stack[at] == UNTOUCHED) {
        at++;
    }
    printf(\"%\" PRIu32 \" %zu\\n\", total.refusal, sizeof stack - at);
    return 0;
}
";

#[test]
fn stack_of_the_price_sheet() {
    let header = repository().join("include/dictionary.h");
    let header = fs::read_to_string(header).expect("a text");
    assert!(header.contains(&format!("uses less than {PRICE_STACK} bytes of stack")));
    let source = PathBuf::from(env!("CARGO_TARGET_TMPDIR")).join("on_own_stack.c");
    fs::write(&source, ON_OWN_STACK).expect("the file is written");
    let program = programs(&["price"]).program("c99", &[source]);
    let told = written(&mut Command::new(program));
    let touched = told.strip_prefix("0 ").expect("no refusal").trim_end();
    let touched: usize = touched.parse().expect("a number");
    assert!((1..PRICE_STACK).contains(&touched), "{touched}");
}

#[test]
fn numbers_and_sizes() {
    let of_desk = REFUSALS.map(|(name, refusal)| (name, refusal.number() as usize));
    let of_price = PRICE_REFUSALS.map(|(name, refusal)| (name, refusal.number() as usize));
    let others = [
        ("DESK_NONE", 0),
        ("DESK_FIRST_ENTRY", FIRST_ENTRY as usize),
        ("DESK_STEP_BYTES", 8),
        ("DESK_TERM_BYTES", TERM_BYTES),
        ("sizeof(DeskDelivery)", 16),
        ("offsetof(DeskDelivery, refusal)", 0),
        ("offsetof(DeskDelivery, count)", 8),
        ("PRICE_NONE", 0),
        ("PRICE_BAND_BYTES", Band::BYTES),
        ("PRICE_MOST_BANDS", MOST_BANDS),
        ("PRICE_MOST_DELIVERIES", MOST_DELIVERIES as usize),
        ("PRICE_MOST_CENTS_A_HUNDRED", MOST_PRICE as usize),
        ("sizeof(PriceTotal)", 12),
        ("offsetof(PriceTotal, refusal)", 0),
        ("offsetof(PriceTotal, cents)", 4),
        ("offsetof(PriceTotal, remainder)", 8),
    ];
    let all = of_desk.into_iter().chain(of_price).chain(others);
    let mut expected: Vec<_> = all
        .map(|(name, number)| (name.to_string(), number))
        .collect();
    for p in [2, 4, 8] {
        for l in [1, 2, 24, 499, 500] {
            let words = table_words(p, l).expect("a proper p and L");
            let output = most_output_bytes(p, l).expect("a proper p and L");
            expected.extend([
                (format!("DESK_TABLE_WORDS({p}, {l})"), words),
                (format!("DESK_MOST_OUTPUT_BYTES({l})"), output),
            ]);
        }
    }
    programs(&[]).assert_constants("dictionary.h", &expected);
}
