//! Where each node starts: what the generator prints, and the constants of `rust/otq`, of the header and of
//! the documents, against the reference and against that print.

use crate::support::printed;
use c_programs::{repository, Programs};
use otq::{Block, NODE_STARTS, NODE_STARTS_L};
use reference::node_starts::{print_starts, start_table, starts_hold, L};
use std::fs;
use std::path::PathBuf;

/// A file of the repository.
fn text(file: &str) -> String {
    fs::read_to_string(repository().join(file)).expect(file)
}

/// The generator's print; it reads no input.
fn generated() -> String {
    printed("print_nodes", &[])
}

#[test]
fn the_generator() {
    assert_eq!(generated(), print_starts(&start_table(L)));
}

/// With the program stands what it must print, which is what it does print.
#[test]
fn the_stored_print() {
    assert_eq!(generated(), text("crates/print_nodes/stdout"));
}

/// The rules show the table as it is printed, and nothing else in that block.
#[test]
fn the_rules() {
    let printed = generated();
    let lines = printed.lines().map(|line| format!("    {line}\n"));
    let block = format!("\n\n{}\n", lines.collect::<String>());
    assert!(text("docs/RULES.md").contains(&block), "{block}");
}

/// The README counts the words of a block: with p = 4 at place 3 of leaf 1, which is node 5.
#[test]
fn the_counted_words() {
    let (start, place, size) = (NODE_STARTS[1][5 - 1], 3, Block::WORDS as u32);
    let first = start + size * place;
    let last = first + size - 1;
    let counted = format!("words {first} ({start} + {size} × {place}) to {last}");
    assert!(text("README.md").contains(&counted), "{counted}");
}

#[test]
fn constants_for_rust() {
    let constants: [[u32; 15]; 3] = NODE_STARTS;
    assert_eq!((constants, NODE_STARTS_L), (start_table(L), L));
    assert_eq!(starts_hold(NODE_STARTS_L, &constants), Ok(()));
}

#[test]
fn constants_for_rust_as_generated() {
    let number = |word: &str| word.parse().expect("a number");
    let row = |line: &str| line.split(' ').map(number).collect::<Vec<u32>>();
    let rows: Vec<Vec<u32>> = generated().lines().map(row).collect();
    assert_eq!(rows, NODE_STARTS.map(Vec::from));
}

/// Programs that call nothing of the library.
fn programs() -> Programs {
    Programs {
        folder: PathBuf::from(env!("CARGO_TARGET_TMPDIR")),
        libraries: &[],
    }
}

/// Prints the header's table in the form of the generator.
const PRINTER: &str = "#include \"otq.h\"
#include <inttypes.h>
#include <stdio.h>
static void tell(const uint32_t *row)
{
    int node;
    for (node = 1; node <= 15; node++) {
        printf(\"%\" PRIu32 \"%c\", row[node - 1], node < 15 ? ' ' : '\\n');
    }
}
int main(void)
{
    int row;
    for (row = 0; row < 3; row++) {
        tell(OTQ_NODE_STARTS[row]);
    }
    return 0;
}
";

#[test]
fn constants_for_c_and_cpp() {
    programs().assert_writes("node_starts.c", PRINTER, &generated());
}
