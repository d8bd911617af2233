//! The header for C and C++: the worked example compiled with it and run, and its numbers and sizes
//! against the Rust functions.

use crate::support::needed;
use c_programs::{repository, written, Programs};
use otq::{most_answer_bytes, most_order_bytes, Block, Refusal};
use reference::demand3::step_limit;
use reference::tree::Shape;
use std::fs;
use std::path::PathBuf;
use std::process::Command;

const REFUSALS: [(&str, Refusal); 12] = [
    ("OTQ_PROCESSES", Refusal::Processes),
    ("OTQ_OPERATIONS", Refusal::Operations),
    ("OTQ_TABLE_SHORT", Refusal::TableShort),
    ("OTQ_RECORDS_TORN", Refusal::RecordsTorn),
    ("OTQ_ILL_FORMED", Refusal::IllFormed),
    ("OTQ_BEGIN_WHILE_BUSY", Refusal::BeginWhileBusy),
    ("OTQ_STEP_WHILE_IDLE", Refusal::StepWhileIdle),
    ("OTQ_BEGUN_ALL", Refusal::BegunAll),
    ("OTQ_ANSWERS_FULL", Refusal::AnswersFull),
    ("OTQ_OUTPUT_SHORT", Refusal::OutputShort),
    ("OTQ_LOG_TORN", Refusal::LogTorn),
    ("OTQ_STEP_AMONG_BEGINS", Refusal::StepAmongBegins),
];

/// The words of a block.
const BLOCK: [(&str, usize); 8] = [
    ("OTQ_BLOCK_WORDS", Block::WORDS),
    ("OTQ_BLOCK_PUTS", 0),
    ("OTQ_BLOCK_TAKES", 1),
    ("OTQ_BLOCK_SUPER", 2),
    ("OTQ_BLOCK_END_LEFT", 3),
    ("OTQ_BLOCK_END_RIGHT", 4),
    ("OTQ_BLOCK_SIZE", 5),
    ("OTQ_BLOCK_NUMBER", 6),
];

fn programs() -> Programs {
    Programs {
        folder: PathBuf::from(env!("CARGO_TARGET_TMPDIR")),
        libraries: &["queue"],
    }
}

fn assert_worked(standard: &str) {
    let example = repository().join("examples/c");
    let program = programs().program(standard, &[example.join("worked.c")]);
    let expected = fs::read_to_string(example.join("worked.expected")).expect("a text");
    assert_eq!(written(&mut Command::new(program)), expected);
}

#[test]
fn the_worked_example_in_c() {
    assert_worked("c99");
}

#[test]
fn the_worked_example_in_cpp() {
    assert_worked("c++11");
}

/// Every macro and the texts, under the same warnings.
const USER: &str = "#include \"otq_text.h\"
#include <stdio.h>
int main(void)
{
    int p = 2, l = 1;
    uint32_t number;
    printf(\"%d %d %d\\n\", OTQ_TABLE_WORDS(p, l) == 49, OTQ_MOST_ANSWER_BYTES(p, l) == 32,
           OTQ_MOST_OUTPUT_BYTES(p, l) == 16);
    for (number = 0; number <= 13; number++) {
        puts(otq_refusal_text(number));
    }
    return 0;
}
";

#[test]
fn macros_and_texts() {
    let texts = REFUSALS.map(|(_, refusal)| format!("{refusal}\n"));
    let texts = texts.concat();
    let expected = format!("1 1 1\nnothing is refused\n{texts}no refusal has this number\n");
    programs().assert_writes("user.c", USER, &expected);
}

/// Each outcome of a forecast, field by field.
const FORECASTER: &str = "#include \"otq.h\"
#include <inttypes.h>
#include <stdio.h>
static void tell(uint32_t p, uint32_t l, const uint8_t *begins, size_t count)
{
    OtqForecast told = otq_forecast(p, l, begins, count);
    printf(\"%\" PRIu32 \" %\" PRIu64 \" %\" PRIu64 \" %\" PRIu64 \"\\n\", told.refusal, told.words,
           told.answer_bytes, told.records);
}
int main(void)
{
    static const uint8_t begins[] = {0, 1, 0, 0, 7, 0, 0, 0, 1, 2, 0, 0, 0, 0, 0, 0};
    static const uint8_t step[] = {1, 0, 0, 0, 0, 0, 0, 0};
    static const uint8_t twice[] = {1, 2, 0, 0, 0, 0, 0, 0, 1, 2, 0, 0, 0, 0, 0, 0};
    static const uint8_t ill_formed_step[] = {1, 0, 0, 0, 7, 0, 0, 0};
    tell(2, 1, begins, sizeof begins);
    tell(4, 24, begins, sizeof begins);
    tell(8, 500, begins, 0);
    tell(3, 1, begins, sizeof begins);
    tell(2, 501, begins, sizeof begins);
    tell(2, 1, begins, 15);
    tell(2, 1, ill_formed_step, sizeof ill_formed_step);
    tell(2, 1, step, sizeof step);
    tell(2, 1, twice, sizeof twice);
    return 0;
}
";

#[test]
fn forecasts() {
    let foreseen = "0 49 32 84\n0 2065 32 164\n0 112105 0 0\n";
    let refused = [1, 2, 4, 5, 12, 8].map(|number| format!("{number} 0 0 0\n"));
    let expected = format!("{foreseen}{}", refused.concat());
    programs().assert_writes("forecaster.c", FORECASTER, &expected);
}

/// A put of 7 by process 0, p = 2 and L = 1: the words of the root's block 1, by name, and of the leaf's.
const READER: &str = "#include \"otq.h\"
#include <inttypes.h>
#include <stdio.h>
static void tell(const uint32_t *block)
{
    printf(\"%\" PRIu32 \" %\" PRIu32 \" %\" PRIu32 \" %\" PRIu32 \" %\" PRIu32 \" %\" PRIu32 \" %\" PRIu32 \"\\n\",
           block[OTQ_BLOCK_PUTS], block[OTQ_BLOCK_TAKES], block[OTQ_BLOCK_SUPER], block[OTQ_BLOCK_END_LEFT],
           block[OTQ_BLOCK_END_RIGHT], block[OTQ_BLOCK_SIZE], block[OTQ_BLOCK_NUMBER]);
}
int main(void)
{
    static const uint8_t records[18 * OTQ_STEP_BYTES] = {0, 1, 0, 0, 7};
    static uint32_t table[OTQ_TABLE_WORDS(2, 1)];
    uint8_t answers[OTQ_ANSWER_BYTES];
    otq_run(2, 1, records, sizeof records, table, OTQ_TABLE_WORDS(2, 1), answers, sizeof answers);
    tell(table + OTQ_BLOCK_WORDS);
    /* The root has places 0 to 2. */
    tell(table + 3 * OTQ_BLOCK_WORDS + OTQ_BLOCK_WORDS);
    return 0;
}
";

#[test]
fn words_of_a_block() {
    programs().assert_writes("reader.c", READER, "1 0 0 1 0 1 16\n1 0 1 7 0 0 2\n");
}

/// The limits that the header tells are those of the rules.
#[test]
fn limits_on_steps_and_records() {
    let header = fs::read_to_string(repository().join("include/otq.h")).unwrap();
    let [two, four, eight] = [2, 4, 8].map(|p| step_limit(Shape::new(p, 1).unwrap()));
    let steps = format!("at most {two}, {four} or {eight} with p = 2, 4 or 8");
    let records = format!(
        "{}, {} or {} a begin with p = 2, 4 or 8",
        two + 1,
        four + 1,
        eight + 1
    );
    for told in [steps, records] {
        assert!(header.contains(&told), "{told}");
    }
}

#[test]
fn numbers_and_sizes() {
    let refusals = REFUSALS.map(|(name, refusal)| (name.to_string(), refusal.number() as usize));
    let others = [
        ("OTQ_NONE", 0),
        ("OTQ_SAME", 0),
        ("OTQ_DIFFERS", 1),
        ("OTQ_REFUSED", 2),
        ("sizeof(OtqRun)", 24),
        ("sizeof(OtqList)", 16),
        ("sizeof(OtqCheck)", 16),
        ("sizeof(OtqForecast)", 32),
        ("offsetof(OtqRun, refusal)", 0),
        ("offsetof(OtqRun, taken)", 8),
        ("offsetof(OtqRun, answers)", 16),
        ("offsetof(OtqList, refusal)", 0),
        ("offsetof(OtqList, length)", 8),
        ("offsetof(OtqCheck, refusal)", 0),
        ("offsetof(OtqCheck, verdict)", 4),
        ("offsetof(OtqCheck, index)", 8),
        ("offsetof(OtqForecast, refusal)", 0),
        ("offsetof(OtqForecast, words)", 8),
        ("offsetof(OtqForecast, answer_bytes)", 16),
        ("offsetof(OtqForecast, records)", 24),
        ("OTQ_NODE_STARTS_L", 24),
        ("sizeof(OTQ_NODE_STARTS)", 3 * 15 * 4),
        ("sizeof(OTQ_NODE_STARTS[0])", 15 * 4),
        ("sizeof(OTQ_NODE_STARTS[0][0])", 4),
        ("OTQ_NODE_STARTS_ROW(2)", 0),
        ("OTQ_NODE_STARTS_ROW(4)", 1),
        ("OTQ_NODE_STARTS_ROW(8)", 2),
    ];
    let mut expected = Vec::from(refusals);
    let others = others.iter().chain(&BLOCK);
    expected.extend(others.map(|&(name, number)| (name.to_string(), number)));
    for p in [2, 4, 8] {
        for l in [1, 2, 24, 499, 500] {
            let answers = most_answer_bytes(p, l).expect("a proper p and L");
            let output = most_order_bytes(p, l).expect("a proper p and L");
            expected.extend([
                (format!("OTQ_TABLE_WORDS({p}, {l})"), needed(p, l)),
                (format!("OTQ_MOST_ANSWER_BYTES({p}, {l})"), answers),
                (format!("OTQ_MOST_OUTPUT_BYTES({p}, {l})"), output),
            ]);
        }
    }
    programs().assert_constants("otq.h", &expected);
}
