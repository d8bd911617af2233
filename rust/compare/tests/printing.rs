//! The printing program against the reference's print.

use crate::support::{built, mixed_list, printed};
use c_programs::repository;
use reference::help_lists::{help_lists, most_helped};
use reference::hostile::harm_list;
use reference::lists::List;
use reference::print::{print_run, L, P, RECORD_BYTES};
use reference::random::Random;
use reference::schedules::{schedule, Pace, Plan};
use std::fs;
use std::process::{Command, Output};

const PROGRAM: &str = "print_run";

/// What the program prints for this input.
fn program(input: &[u8]) -> String {
    printed(PROGRAM, input)
}

fn assert_print(input: &[u8]) {
    assert_eq!(program(input), print_run(input));
}

/// The program prints what the reference does, and it ends so.
fn assert_ends(input: &[u8], end: &str) {
    let print = program(input);
    assert_eq!(print, print_run(input));
    assert!(print.ends_with(end), "{print}");
}

fn worked() -> List {
    List::new().put(0, 7).steps(0, 31).take(1).steps(1, 31)
}

#[test]
fn worked_run() {
    let print = "put 0 1 31 0 1\ntake 1 1 31 0 2 7\nend 0 64\n";
    assert_eq!(program(&worked().bytes()), print);
}

#[test]
fn helps_after_steps() {
    // Process 0 stops after its A, and process 1 moves the head of 0's leaf.
    let begun = List::new().put(0, 9).steps(0, 1).put(1, 8);
    let list = begun.steps(1, 34).steps(0, 24).bytes();
    assert_ends(&list, "put 1 1 34 1 1\nput 0 1 25 0 1\nend 0 61\n");
    assert_print(&most_helped(P).bytes());
    for fixed in help_lists().into_iter().filter(|fixed| fixed.p == P) {
        assert_print(&fixed.list.bytes());
    }
}

/// `examples/play` with these words, from the repository's root.
fn example(words: &[&str]) -> Output {
    // Without the program the example would begin to prove it.
    built(PROGRAM);
    Command::new("examples/play")
        .args(words)
        .current_dir(repository())
        .output()
        .expect("the example starts")
}

#[test]
fn examples_are_played_by_the_program() {
    let known = |name| format!("examples/known/{name}");
    let m5 = known("M5.txt");
    for (words, print) in [(&[][..], "M2.expected"), (&[&m5[..]], "M5.expected")] {
        let output = example(words);
        assert!(output.status.success(), "{output:?}");
        let print = fs::read(repository().join(known(print))).expect("a print");
        assert_eq!(output.stdout, print);
    }
    // M3 has two processes, the program four.
    let refused = example(&[&known("M3.txt")]);
    assert!(!refused.status.success() && refused.stdout.is_empty());
}

/// Of 1 to 9, the program's p, L, table and answer bytes leave 4 to 8.
#[test]
fn every_refusal_number() {
    assert_ends(&[], "end 0 0\n");
    assert_ends(&[0; 7], "end 4 0\n");
    assert_ends(&worked().bytes()[..511], "end 4 0\n");
    assert_ends(&worked().put(4, 0).bytes(), "end 5 64\n");
    assert_ends(&worked().put(2, 1).put(2, 1).bytes(), "end 6 65\n");
    assert_ends(&worked().steps(3, 1).bytes(), "end 7 64\n");
    let all = mixed_list(P, L, 6);
    let end = format!("end 0 {}\n", all.len() / 8);
    assert_ends(&all, &end);
    let one_more = [all, List::new().take(3).bytes()].concat();
    let end = format!("end 8 {}\n", one_more.len() / 8 - 1);
    assert_ends(&one_more, &end);
}

#[test]
fn long_input() {
    let mut list = worked().bytes();
    list.resize(RECORD_BYTES, 0);
    assert_ends(&list, "end 7 64\n");
    list.push(0);
    assert_eq!(program(&list), "long\n");
    list.resize(4 * RECORD_BYTES, 0);
    assert_eq!(program(&list), "long\n");
    list.truncate(RECORD_BYTES - 1);
    assert_ends(&list, "end 4 0\n");
}

#[test]
fn values_of_every_length() {
    let mut list = List::new();
    for digits in 0..10 {
        let value = 10_u32.pow(digits);
        for value in [value - 1, value] {
            list = list.put(1, value).steps(1, 31).take(2).steps(2, 31);
        }
    }
    assert_print(
        &list
            .put(0, u32::MAX)
            .steps(0, 31)
            .take(3)
            .steps(3, 31)
            .bytes(),
    );
}

#[test]
fn random_and_hostile_lists() {
    let mut random = Random::new(7);
    for _ in 0..300 {
        let pace = random.pick(&[Pace::Uniform, Pace::Lockstep, Pace::Bursts(20)]);
        let plan = Plan::new(P, L, pace, random.next()).puts_of_8(random.below(9));
        let mut list = schedule(&plan);
        harm_list(&mut random, P, &mut list);
        assert_print(&list);
    }
}
