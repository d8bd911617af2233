//! `otq make`.

use crate::support::{assert_fails, file, otq, path, written};
use std::fs;

const PACES: [&str; 6] = [
    "uniform",
    "bursts:1",
    "bursts:40",
    "lockstep",
    "one",
    "stall:C4",
];

fn words<'a>(p: &'a str, l: &'a str, pace: &'a str) -> Vec<&'a str> {
    vec!["make", "-p", p, "-L", l, "--pace", pace, "--seed", "1"]
}

/// What is made is taken whole, and every operation ends.
#[test]
fn every_pace() {
    for p in ["2", "4", "8"] {
        for pace in PACES {
            let text = written(&words(p, "5", pace));
            let heading = format!(
                "# otq make -p {p} -L 5 --pace {pace} --seed 1\nprocesses {p}\noperations 5\n"
            );
            assert!(text.starts_with(&heading), "{text}");
            let list = file(&format!("made-{p}-{pace}.txt"), text.as_bytes());
            let print = written(&["run", &list]);
            let operations = 5 * p.parse::<usize>().unwrap();
            assert_eq!(print.lines().count(), operations + 1, "{p} {pace}");
            assert!(print.contains("\nend 0 "), "{print}");
        }
    }
}

#[test]
fn every_step_can_stall() {
    for step in [
        "A", "V1", "V2", "V3", "R1", "R2", "R3", "R4", "R5", "C1", "C2", "C3L", "C3R", "C3N", "C4",
        "Q",
    ] {
        written(&words("2", "2", &format!("stall:{step}")));
    }
}

#[test]
fn the_seed_decides() {
    let make = |seed| {
        written(&[
            "make", "-p", "2", "-L", "9", "--pace", "uniform", "--seed", seed,
        ])
    };
    assert_eq!(make("7"), make("7"));
    assert_ne!(make("7"), make("8"));
    make("18446744073709551615");
}

#[test]
fn to_a_file() {
    let out = path("made.txt");
    let made = written(&words("2", "3", "uniform"));
    let said = [words("2", "3", "uniform"), vec!["-o", &out]].concat();
    assert_eq!(written(&said), "");
    assert_eq!(fs::read_to_string(&out).unwrap(), made);
}

#[test]
fn p_and_l_are_refused_by_the_library() {
    assert_fails(
        &words("3", "5", "one"),
        3,
        "otq: refused with 1: the number of processes",
    );
    assert_fails(&words("2", "501", "one"), 3, "otq: refused with 2: ");
    assert_fails(&words("2", "0", "one"), 3, "otq: refused with 2: ");
}

#[test]
fn mistakes() {
    for pace in [
        "",
        "fast",
        "bursts",
        "bursts:",
        "bursts:0",
        "bursts:x",
        "bursts:1000001",
        "stall",
        "stall:",
        "stall:c4",
        "stall:C3",
        "stall:X",
        "one:1",
        "uniform:",
    ] {
        let said = otq(&words("2", "3", pace));
        match pace {
            // Nothing after a colon is as no colon.
            "uniform:" => assert_eq!(said.status, 0),
            _ => {
                assert_eq!(said.status, 2, "{pace}");
                let message =
                    "otq: --pace: expected uniform, bursts:N, lockstep, one or stall:STEP, ";
                assert!(said.err.starts_with(message), "{said:?}");
            }
        }
    }
    let message = "otq: give -p P, -L L, --pace PACE and --seed S\n";
    assert_fails(&["make"], 2, message);
    assert_fails(&["make", "-p", "2", "-L", "3", "--pace", "one"], 2, message);
}

/// The largest exercise.
#[test]
fn the_most_operations() {
    let out = path("made-most.txt");
    written(&[
        "make", "-p", "8", "-L", "500", "--pace", "one", "--seed", "1", "-o", &out,
    ]);
    let print = written(&["run", &out]);
    assert!(print.ends_with("\nend 0 184000\n"));
}
