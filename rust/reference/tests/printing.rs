//! The printing program, through its function and as a program.

use reference::help_lists::help_lists;
use reference::known_runs::{m2, m5};
use reference::lists::List;
use reference::print::{print_run, L, P, RECORD_BYTES, TABLE_WORDS};
use reference::tree::Shape;
use std::process::Command;

/// What the program prints for this input.
fn program(input: &[u8]) -> String {
    spawned::written(&mut Command::new(env!("CARGO_BIN_EXE_print_run")), input)
}

fn assert_print(input: &[u8], print: &str) {
    assert_eq!(print_run(input), print);
    assert_eq!(program(input), print);
}

#[test]
fn worked_print() {
    assert_print(
        &m2().bytes(),
        "put 0 1 31 0 1\ntake 1 1 31 0 2 7\nend 0 64\n",
    );
}

#[test]
fn puts_that_are_helped() {
    // Process 0 stops after its A, and process 1 moves the head of 0's leaf.
    let begun = List::new().put(0, 9).steps(0, 1).put(1, 8);
    let list = begun.steps(1, 34).steps(0, 24).bytes();
    assert_print(&list, "put 1 1 34 1 1\nput 0 1 25 0 1\nend 0 61\n");
    let [.., both_inner, _, _] = help_lists();
    assert_print(&both_inner.list.bytes(), "put 0 1 37 2 1\nend 0 70\n");
}

#[test]
fn m5_has_no_helps() {
    let print = "put 0 1 31 0 1\nput 1 1 29 0 1\ntake 2 1 31 0 2 10\nend 0 94\n";
    assert_print(&m5().bytes(), print);
}

#[test]
fn a_take_of_nothing_and_a_large_value() {
    let list = List::new()
        .take(3)
        .steps(3, 31)
        .put(3, u32::MAX)
        .steps(3, 31);
    let list = list.take(0).steps(0, 31).bytes();
    let print = "take 3 1 31 0 1 none\nput 3 2 31 0 2\ntake 0 1 31 0 3 4294967295\nend 0 96\n";
    assert_print(&list, print);
}

#[test]
fn refusals_end_the_print() {
    assert_print(&[], "end 0 0\n");
    assert_print(&[0; 7], "end 4 0\n");
    assert_print(
        &m2().steps(1, 1).bytes(),
        "put 0 1 31 0 1\ntake 1 1 31 0 2 7\nend 7 64\n",
    );
    assert_print(&List::new().put(4, 0).bytes(), "end 5 0\n");
    assert_print(&List::new().put(1, 0).put(1, 0).bytes(), "end 6 1\n");
}

#[test]
fn all_operations_have_room() {
    let mut list = List::new();
    for operation in 0..P * L {
        list = list.put(operation % P, operation).steps(operation % P, 31);
    }
    let list = list.bytes();
    let print = print_run(&list);
    assert_eq!(print.lines().count(), 97);
    assert!(print.ends_with("put 3 24 31 0 96\nend 0 3072\n"));
    let one_more = [list, List::new().put(0, 0).bytes()].concat();
    assert!(print_run(&one_more).ends_with("put 3 24 31 0 96\nend 8 3072\n"));
}

#[test]
fn input_as_long_as_the_buffer_and_longer() {
    let mut list = m2().bytes();
    list.resize(RECORD_BYTES, 0);
    assert_print(&list, "put 0 1 31 0 1\ntake 1 1 31 0 2 7\nend 7 64\n");
    list.push(0);
    assert_print(&list, "long\n");
    list.resize(4 * RECORD_BYTES, 0);
    assert_print(&list, "long\n");
}

#[test]
fn the_table_has_the_words_needed() {
    assert_eq!(Shape::new(P, L).unwrap().words_needed(), TABLE_WORDS);
}
