//! `otq desk`.

use crate::support::{
    assert_fails, bytes, content, file, otq, otq_on, path, with_numbers, written, STEPS, TERMS,
    TORN,
};
use std::fs;

fn expected() -> String {
    String::from_utf8(content("examples/dictionary/deliveries.expected")).expect("text")
}

#[test]
fn text_and_records() {
    let expected = expected();
    assert_eq!(written(&["desk", "--licensed", "0", TERMS]), expected);
    let records = bytes(&["encode", TERMS]);
    let list = file("desk.bin", &records);
    let words = ["desk", "-p", "2", "-L", "5", "--licensed", "0"];
    assert_eq!(written(&[&words[..], &[&list]].concat()), expected);
    let said = otq_on(&[&words[..], &["-"]].concat(), &records);
    assert_eq!((said.status, said.out), (0, expected));
    let empty = file("desk.empty", b"");
    assert_eq!(written(&["desk", &empty, "--licensed=3"]), "0 terms\n");
    let no_entries = with_numbers("desk", &["--licensed", "1", STEPS]);
    assert_eq!(written(&no_entries), "0 terms\n");
}

/// In the example the later of two takes ends first, so that the answers have another order.
#[test]
fn terms_are_in_root_order() {
    let answers = written(&["run", TERMS]);
    let answer = |take: &str| answers.find(take).expect("an answer");
    assert!(answer("take 1 2 ") < answer("take 0 5 "));
    let expected = expected();
    let term = |take: &str| expected.find(take).expect("a term");
    assert!(term(" take 0 5 ") < term(" take 1 2 "));
}

/// The terms of a list of two processes, the first of them licensed: its puts, one after the other, and
/// as many takes by the other.
fn terms(name: &str, operations: u32, values: &[u32]) -> String {
    let puts = values
        .iter()
        .map(|value| format!("put {value} by 0\nstep 0 x17\n"));
    let heading = format!("processes 2\noperations {operations}\n");
    let takes = "take by 1\nstep 1 x17\n".repeat(values.len());
    let text = heading + &puts.collect::<String>() + &takes;
    let list = file(&format!("desk-{name}.txt"), text.as_bytes());
    written(&["desk", "--licensed", "0", &list])
}

#[test]
fn the_first_and_the_last_entry() {
    let told = terms("edges", 3, &[(1 << 31) - 1, 1 << 31, u32::MAX]);
    let lines = "term 0 take 1 2 put 0 2 2\nterm 2147483647 take 1 3 put 0 3 3\n";
    assert_eq!(told, format!("{lines}2 terms\n"));
    let one = terms("one", 1, &[(1 << 31) + 1]);
    assert_eq!(one, "term 1 take 1 1 put 0 1 1\n1 term\n");
}

/// As many terms as a licensed process can put: the output is just long enough.
#[test]
fn the_most_terms() {
    let values: Vec<u32> = (0..500).map(|term| (1 << 31) + term).collect();
    let told = terms("most", 500, &values);
    assert!(told.ends_with("\nterm 499 take 1 500 put 0 500 500\n500 terms\n"));
    assert_eq!(told.lines().count(), 501);
}

/// Exercises in which process 0 puts entries and the others do not, whole and cut, so that takes do not
/// end: the desk and the order list agree, and the put that a line names has the line's term as its value.
#[test]
fn made_lists() {
    for pace in ["uniform", "bursts:20", "lockstep", "stall:C4", "stall:Q"] {
        let numbers = ["-p", "4", "-L", "20", "--seed", "5", "--pace", pace];
        let made = written(&[&["make"], &numbers[..]].concat());
        let lines: Vec<String> = made.lines().enumerate().map(with_own_value).collect();
        for kept in [lines.len(), lines.len() / 2] {
            let list = file(
                &format!("desk-made-{pace}-{kept}.txt"),
                lines[..kept].join("\n").as_bytes(),
            );
            let told = written(&["desk", "--licensed", "0", &list]);
            let order = written(&["order", &list]);
            let (mut terms, mut number) = (told.lines(), 0);
            let last = terms.next_back();
            for line in terms {
                assert_names_its_put(line, &lines[..kept], &order);
                number += 1;
            }
            assert!(number > 1, "{told}");
            assert_eq!(last, Some(format!("{number} terms").as_str()), "{told}");
        }
    }
}

/// In a list whose puts have their own values: the operation that the line of a term names as its put
/// stands in the list where the term says, and in the order list where the number says.
fn assert_names_its_put(line: &str, list: &[String], order: &str) {
    let words: Vec<&str> = line.split(' ').collect();
    let ["term", term, "take", _, _, "put", process, serial, number] = words[..] else {
        panic!("{line}");
    };
    let place = |word: &str| word.parse::<usize>().expect("a number") - 1;
    let of_process = format!(" by {process}");
    let begins = list.iter().enumerate();
    let mut begins = begins.filter(|(_, begin)| begin.ends_with(&of_process));
    let (index, begin) = begins.nth(place(serial)).expect("a begin");
    assert!(begin.starts_with("put "), "{line}");
    assert_eq!(index.to_string(), term, "{line}");
    let mut puts = order.lines().filter(|line| line.starts_with("put "));
    let put = puts.nth(place(number)).expect("a put of the order");
    let named = format!("put {process} {serial} ");
    assert!(put.starts_with(&named), "{line}");
}

/// A line in which a put has its line's number as its value, and of process 0 as its term.
fn with_own_value((index, line): (usize, &str)) -> String {
    match line.split_once(" by ") {
        Some((put, process)) if put.starts_with("put ") => {
            let value = index + if process == "0" { 1 << 31 } else { 0 };
            format!("put {value} by {process}")
        }
        _ => line.to_string(),
    }
}

#[test]
fn raw_terms() {
    let raw = path("terms.bin");
    let words = ["desk", "--licensed", "0", TERMS, "--raw", &raw];
    assert_eq!(written(&words), expected());
    let terms = [1500, 20, 407].map(u32::to_le_bytes);
    assert_eq!(fs::read(&raw).unwrap(), terms.concat());
    let refused = path("refused-terms.bin");
    let words = ["desk", "--licensed", "1", TERMS, "--raw", &refused];
    assert_fails(&words, 3, "otq: refused with 14: ");
    assert!(fs::metadata(&refused).is_err());
}

/// Lists that are refused: a name, the licensed process, the text, and how what is told begins.
const REFUSED: [[&str; 4]; 15] = [
    [
        "processes",
        "9",
        "processes 3\noperations 0\n",
        "otq: refused with 1: the number of processes is not 2, 4 or 8\n  p is 3, FILE:1\n  `otq explain 1`",
    ],
    [
        "operations",
        "9",
        "processes 2\noperations 501\ntable 0\n",
        "otq: refused with 2: the most operations of a process are not 1 to 500\n  L is 501, FILE:2\n  \
         `otq explain 2`",
    ],
    [
        "licence",
        "2",
        "processes 2\noperations 1\ntable 0\nput 2147483648 by 2\n",
        "otq: refused with 13: the licensed process is not below the number of processes\n  \
         process 2 is licensed, and p is 2\n  \
         likely cause: with `processes 4` or `processes 8` the whole list is taken\n  `otq explain 13`",
    ],
    [
        "licence-of-one",
        "2",
        "processes 2\nput 7 by 0\nput 2147483648 by 1\n",
        "otq: refused with 13: the licensed process is not below the number of processes\n  \
         process 2 is licensed, and p is 2\n  \
         likely cause: process 1 alone puts entries: with --licensed 1 the whole list is taken\n  \
         `otq explain 13`",
    ],
    [
        "licence-without-entries",
        "2",
        "processes 2\nput 2147483647 by 1\n",
        "otq: refused with 13: the licensed process is not below the number of processes\n  \
         process 2 is licensed, and p is 2\n  \
         likely cause: no process puts entries: with --licensed 0 the whole list is taken\n  \
         `otq explain 13`",
    ],
    [
        "licence-of-both",
        "2",
        "processes 2\nput 2147483648 by 0\nput 2147483648 by 1\n",
        "otq: refused with 13: the licensed process is not below the number of processes\n  \
         process 2 is licensed, and p is 2\n  `otq explain 13`",
    ],
    [
        "table",
        "1",
        "processes 2\noperations 1\ntable 48\nput 2147483648 by 0\n",
        "otq: refused with 3: the work table is too short\n  \
         48 table words are lent, and 49 are needed, FILE:3\n  `otq explain 3`",
    ],
    [
        "ill-formed",
        "1",
        "processes 2\nraw 00 01 00 01 00 00 00 80\n",
        "otq: refused with 5: a record is ill-formed\n  \
         record 1, byte 0: raw 00 01 00 01 00 00 00 80, FILE:2\n  \
         its bytes 2 and 3 are not both 0\n  `otq explain 5`",
    ],
    [
        "busy",
        "1",
        "processes 2\noperations 2\nput 1 by 0\nput 2147483648 by 0\n",
        "otq: refused with 6: a process begins an operation while it is inside another\n  \
         record 2, byte 8: put 2147483648 by 0 (00 01 00 00 00 00 00 80), FILE:4\n  \
         process 0 is still inside the operation that record 1 began\n  `otq explain 6`",
    ],
    [
        "idle",
        "1",
        "processes 2\ntake by 0\nstep 1\n",
        "otq: refused with 7: a process steps while it is inside no operation\n  \
         record 2, byte 8: step 1 (01 00 00 00 00 00 00 00), FILE:3\n  \
         process 1 has begun nothing before\n  `otq explain 7`",
    ],
    [
        "begun-all",
        "1",
        "processes 2\noperations 1\nput 1 by 0\nput 2147483648 by 0\n",
        "otq: refused with 8: a process begins more operations than it may\n  \
         record 2, byte 8: put 2147483648 by 0 (00 01 00 00 00 00 00 80), FILE:4\n  \
         process 0 has begun 1 operation, and L is 1; it is still inside the one that record 1 began\n  \
         `otq explain 8`",
    ],
    [
        "begun-all-of-the-licensed",
        "0",
        "processes 2\noperations 1\nput 1 by 0\nstep 0 x17\nput 2147483648 by 0\n",
        "otq: refused with 8: a process begins more operations than it may\n  \
         record 19, byte 144: put 2147483648 by 0 (00 01 00 00 00 00 00 80), FILE:5\n  \
         process 0 has begun 1 operation, and L is 1\n  \
         likely cause: with `operations 2` the whole list is taken\n  `otq explain 8`",
    ],
    [
        "foreign",
        "1",
        "processes 2\nput 1 by 0\ntake by 1\nstep 0 x17\nput 2147483655 by 0\nstep 1 x18\n",
        "otq: refused with 14: a process that is not licensed puts an entry\n  \
         record 20, byte 152: put 2147483655 by 0 (00 01 00 00 07 00 00 80), FILE:5\n  \
         process 0 puts term 7, and process 1 is licensed\n  `otq explain 14`",
    ],
    [
        "foreign-to-another",
        "0",
        "processes 4\nput 1 by 0\nput 4294967295 by 3\n",
        "otq: refused with 14: a process that is not licensed puts an entry\n  \
         record 2, byte 8: put 4294967295 by 3 (03 01 00 00 ff ff ff ff), FILE:3\n  \
         process 3 puts term 2147483647, and process 0 is licensed\n  \
         likely cause: process 3 alone puts entries: with --licensed 3 the whole list is taken\n  \
         `otq explain 14` says what to do\n",
    ],
    [
        "foreign-to-both",
        "0",
        "processes 2\nput 2147483648 by 0\nput 2147483648 by 1\n",
        "otq: refused with 14: a process that is not licensed puts an entry\n  \
         record 2, byte 8: put 2147483648 by 1 (01 01 00 00 00 00 00 80), FILE:3\n  \
         process 1 puts term 0, and process 0 is licensed\n  `otq explain 14`",
    ],
];

#[test]
fn each_refusal_of_a_text() {
    for [name, licensed, text, told] in REFUSED {
        let list = file(&format!("desk-refused-{name}.txt"), text.as_bytes());
        let told = told.replace("FILE", &list);
        assert_fails(&["desk", "--licensed", licensed, &list], 3, &told);
    }
}

/// Other numbers are told only if the desk takes the list with them, and not if the queue alone does.
#[test]
fn causes_are_those_of_the_desk() {
    let refused = |licensed| otq(&["desk", "-p", "4", "-L", "3", "--licensed", licensed, STEPS]);
    let cause = "\n  likely cause: with -p 2 the whole list is taken\n";
    assert!(refused("1").err.contains(cause));
    let beyond = refused("3");
    assert!(
        beyond.err.starts_with("otq: refused with 6: "),
        "{beyond:?}"
    );
    assert!(!beyond.err.contains("likely cause"), "{beyond:?}");
}

#[test]
fn torn_lists() {
    let words = with_numbers("desk", &["--licensed", "0", TORN]);
    let told = format!(
        "otq: refused with 4: the record bytes are not a multiple of 8\n  \
         likely cause: 61 whole records, then 3 bytes at byte 488 of {TORN}; --whole plays the 61\n"
    );
    assert_fails(&words, 3, &told);
    let whole = otq(&[&words[..], &["--whole"]].concat());
    assert_eq!((whole.status, whole.out.as_str()), (0, "0 terms\n"));
}

/// The desk has no answer bytes, so that a heading that lends few does not stop it.
#[test]
fn answer_bytes_play_no_part() {
    let text = "processes 2\nanswers 0\nput 2147483657 by 1\nstep 1 x17\ntake by 0\nstep 0 x17\n";
    let list = file("desk-no-answers.txt", text.as_bytes());
    let told = "term 9 take 0 1 put 1 1 1\n1 term\n";
    assert_eq!(written(&["desk", "--licensed", "1", &list]), told);
}

#[test]
fn the_licence_is_asked_for() {
    let message = "otq: give --licensed K, the process that may put entries; \
                   processes count from 0 and are below p\n";
    assert_fails(&["desk", TERMS], 2, message);
}

#[test]
fn json() {
    let told = written(&["desk", "--licensed", "0", TERMS, "--json"]);
    let first = r#"{"refusal": null, "terms": [{"term": 1500, "take": {"process": 0, "kind": "take", "serial": 5, "root_block": 6}, "put": {"process": 0, "kind": "put", "serial": 1, "root_block": 1}, "put_number": 1}, "#;
    assert!(told.starts_with(first), "{told}");
    assert!(
        told.ends_with("\"put_number\": 4}], \"count\": 3}\n"),
        "{told}"
    );
    let refused = otq(&["desk", "--licensed", "1", TERMS, "--json"]);
    assert_eq!(refused.status, 3);
    let beginning = r#"{"refusal": {"number": 14, "name": "ForeignEntry", "meaning": "a process that is not licensed puts an entry", "record": 1, "byte": 0, "line": 5, "#;
    assert!(refused.out.starts_with(beginning), "{refused:?}");
    let end = "}, \"terms\": [], \"count\": 0}\n";
    assert!(refused.out.ends_with(end), "{refused:?}");
}
