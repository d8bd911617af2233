//! `otq forecast`.

use crate::support::{
    assert_fails, bytes, content, file, otq, otq_on, repository, with_numbers, written, BEGINS,
    LOG, STEPS, TEXT, TORN,
};
use std::fs;

const LINE: &str = "room for 12 operations: 2,065 words, 192 answer bytes, at most 984 records\n";

#[test]
fn text_and_records() {
    assert_eq!(written(&["forecast", BEGINS]), LINE);
    assert_eq!(written(&["forecast", "-p", "4", "-L", "24", BEGINS]), LINE);
    let records = bytes(&["encode", BEGINS]);
    let path = file("forecast.bin", &records);
    assert_eq!(written(&["forecast", "-p", "4", "-L", "24", &path]), LINE);
    let said = otq_on(&["forecast", "-p", "4", "-L", "24", "-"], &records);
    assert_eq!((said.status, said.out.as_str()), (0, LINE));
}

/// What a text with these lines needs.
fn told(name: &str, text: &str) -> String {
    written(&[
        "forecast",
        &file(&format!("forecast-{name}.txt"), text.as_bytes()),
    ])
}

#[test]
fn few_begins() {
    let none = "room for 0 operations: 2,065 words, 0 answer bytes, at most 0 records\n";
    assert_eq!(told("none", ""), none);
    let empty = file("forecast.empty", b"");
    let words = with_numbers("forecast", &[&empty]);
    assert_eq!(written(&words), none.replace("2,065", "105"));
    assert_eq!(
        told("one", "processes 2\noperations 1\ntake by 1\n"),
        "room for 1 operation: 49 words, 16 answer bytes, at most 42 records\n"
    );
}

/// All operations that a p and the largest L have.
#[test]
fn the_most_begins() {
    for (p, told_of_p) in [
        (
            2,
            "1,000 operations: 14,021 words, 16,000 answer bytes, at most 42,000 records",
        ),
        (
            4,
            "2,000 operations: 42,049 words, 32,000 answer bytes, at most 164,000 records",
        ),
        (
            8,
            "4,000 operations: 112,105 words, 64,000 answer bytes, at most 488,000 records",
        ),
    ] {
        let begins: String = (0..p)
            .map(|process| format!("take by {process}\n"))
            .collect();
        let text = format!("processes {p}\noperations 500\n{}", begins.repeat(500));
        let name = format!("most-{p}");
        assert_eq!(told(&name, &text), format!("room for {told_of_p}\n"));
    }
}

/// What a heading lends plays no part.
#[test]
fn buffers_of_the_heading() {
    let text = "processes 2\noperations 1\nanswers 0\ntable 0\nput 1 by 0\n";
    assert!(told("buffers", text).starts_with("room for 1 operation: 49 words, 16 "));
}

/// Lists that are refused: a name, the text, and how what is told begins.
const REFUSED: [[&str; 3]; 9] = [
    [
        "processes",
        "processes 3\noperations 0\nput 1 by 2\n",
        "otq: refused with 1: the number of processes is not 2, 4 or 8\n  p is 3, FILE:1\n  \
         likely cause: with `processes 4` `operations 1` or `processes 8` `operations 1` the whole \
         list is taken\n  `otq explain 1`",
    ],
    [
        "operations",
        "processes 2\noperations 501\nstep 9\n",
        "otq: refused with 2: the most operations of a process are not 1 to 500\n  \
         L is 501, FILE:2\n  `otq explain 2`",
    ],
    [
        "operations-of-begins",
        "processes 2\noperations 501\nput 1 by 0\n",
        "otq: refused with 2: the most operations of a process are not 1 to 500\n  \
         L is 501, FILE:2\n  \
         likely cause: with `operations 1` the whole list is taken\n  `otq explain 2`",
    ],
    [
        "ill-formed-of-begins",
        "processes 2\noperations 1\ntake by 3\n",
        "otq: refused with 5: a record is ill-formed\n  \
         record 1, byte 0: take by 3 (03 02 00 00 00 00 00 00), FILE:3\n  \
         process 3 is not below p, 2\n  \
         likely cause: with `processes 4` or `processes 8` the whole list is taken\n  \
         `otq explain 5`",
    ],
    [
        "ill-formed",
        "processes 2\nput 1 by 0\ntake by 3\nstep 0\n",
        "otq: refused with 5: a record is ill-formed\n  \
         record 2, byte 8: take by 3 (03 02 00 00 00 00 00 00), FILE:3\n  \
         process 3 is not below p, 2\n  `otq explain 5`",
    ],
    [
        "ill-formed-step",
        "processes 2\nraw 00 00 00 00 07 00 00 00\n",
        "otq: refused with 5: a record is ill-formed\n  \
         record 1, byte 0: raw 00 00 00 00 07 00 00 00, FILE:2\n  \
         it is no begin put, and its value is not 0\n  `otq explain 5`",
    ],
    [
        "step",
        "processes 2\noperations 1\nput 1 by 0\n\nstep 0 x17\nput 2 by 0\n",
        "otq: refused with 12: a step record stands among begins\n  \
         record 2, byte 8: step 0 (00 00 00 00 00 00 00 00), FILE:5\n  \
         likely cause: it is a whole list, and a forecast is of its begins alone\n  \
         `otq explain 12` says what to do\n",
    ],
    [
        "begun-all",
        "processes 2\noperations 1\nput 1 by 0\ntake by 1\nput 2 by 0\nstep 0\n",
        "otq: refused with 8: a process begins more operations than it may\n  \
         record 3, byte 16: put 2 by 0 (00 01 00 00 02 00 00 00), FILE:5\n  \
         process 0 has begun 1 operation, and L is 1\n  `otq explain 8`",
    ],
    [
        "begun-all-of-begins",
        "processes 2\noperations 1\nput 1 by 0\ntake by 1\nput 2 by 0\n",
        "otq: refused with 8: a process begins more operations than it may\n  \
         record 3, byte 16: put 2 by 0 (00 01 00 00 02 00 00 00), FILE:5\n  \
         process 0 has begun 1 operation, and L is 1\n  \
         likely cause: with `operations 2` the whole list is taken\n  `otq explain 8`",
    ],
];

#[test]
fn each_refusal_of_a_text() {
    for [name, text, told] in REFUSED {
        let path = file(&format!("forecast-refused-{name}.txt"), text.as_bytes());
        assert_fails(&["forecast", &path], 3, &told.replace("FILE", &path));
    }
}

#[test]
fn torn_records() {
    let told = format!(
        "otq: refused with 4: the record bytes are not a multiple of 8\n  \
         likely cause: 61 whole records, then 3 bytes at byte 488 of {TORN}; --whole forecasts the 61\n  \
         `otq explain 4` says what to do\n"
    );
    assert_fails(&with_numbers("forecast", &[TORN]), 3, &told);
    let torn = file("forecast-torn.bin", &[0, 2, 0, 0, 0, 0, 0, 0, 1]);
    let whole = otq(&with_numbers("forecast", &[&torn, "--whole"]));
    let line = "room for 1 operation: 105 words, 16 answer bytes, at most 42 records\n";
    assert_eq!((whole.status, whole.out.as_str()), (0, line));
    assert!(whole
        .err
        .ends_with(": left out the last 1 byte, from byte 8 on\n"));
    // The numbers are tested before the bytes.
    let words = ["forecast", "-p", "3", "-L", "3", &torn];
    assert_fails(&words, 3, "otq: refused with 1: ");
}

/// The library does not say which record it turns down: the command finds it at every place.
#[test]
fn the_refused_record_is_found() {
    let records = 21;
    for place in 0..records {
        let mut list = [1, 2, 0, 0, 0, 0, 0, 0].repeat(records);
        list[8 * place + 1] = 0;
        // One that is wrong in another way does not come first.
        list[8 * (records - 1) + 3] = u8::from(place < records - 1);
        let path = file("forecast-place.bin", &list);
        let said = otq(&["forecast", "-p", "2", "-L", "21", &path]);
        let told = format!("\n  record {}, byte {}: step 1 (", place + 1, 8 * place);
        assert!(said.err.starts_with("otq: refused with 12: "), "{said:?}");
        assert!(said.err.contains(&told), "{said:?}");
    }
}

/// A log in the place of begins is told.
#[test]
fn a_log() {
    let said = otq(&with_numbers("forecast", &[LOG]));
    assert_eq!(said.status, 3, "{said:?}");
    let cause =
        "\n  likely cause: the file holds answer records: it is a log, and not a list of steps\n";
    assert!(said.err.contains(cause), "{said:?}");
}

#[test]
fn whole_lists() {
    for words in [vec!["forecast", TEXT], with_numbers("forecast", &[STEPS])] {
        let told = "otq: refused with 12: a step record stands among begins\n  record 2, byte 8: ";
        assert_fails(&words, 3, told);
    }
    let advice = written(&["explain", "12"]);
    assert!(
        advice.contains("`grep -v '^ *step' FILE | otq forecast -`"),
        "{advice}"
    );
}

#[test]
fn json() {
    let line = r#"{"refusal": null, "operations": 12, "table_words": 2065, "answer_bytes": 192, "records": 984}"#;
    assert_eq!(
        written(&["forecast", "--json", BEGINS]),
        format!("{line}\n")
    );
    let refused = otq(&["forecast", "--json", TEXT]);
    assert_eq!(refused.status, 3);
    assert!(
        refused.err.starts_with("otq: refused with 12: "),
        "{refused:?}"
    );
    let refusal = r#"{"number": 12, "name": "StepAmongBegins", "meaning": "a step record stands among begins", "record": 2, "byte": 8, "line": 5, "words": "step 0", "standing": null, "likely_cause": "it is a whole list, and a forecast is of its begins alone"}"#;
    let zeros = r#""operations": 0, "table_words": 0, "answer_bytes": 0, "records": 0"#;
    assert_eq!(
        refused.out,
        format!("{{\"refusal\": {refusal}, {zeros}}}\n")
    );
}

/// The texts of the examples, by name.
fn examples() -> Vec<(String, String)> {
    let known = fs::read_dir(repository().join("examples/known")).expect("a folder");
    let known = known.map(|entry| {
        entry
            .expect("an entry")
            .file_name()
            .into_string()
            .expect("a name")
    });
    let texts = known.filter(|name| name.ends_with(".txt"));
    let names = texts.map(|name| format!("examples/known/{name}"));
    let names = names.chain([TEXT.to_string(), BEGINS.to_string()]);
    let text = |name: &str| String::from_utf8(content(name)).expect("a text");
    names.map(|name| (name.clone(), text(&name))).collect()
}

/// Words, answer bytes and records that the begins of a text are told to need; `None` if refused.
fn foreseen(text: &str) -> Option<[u64; 3]> {
    let begins = text
        .split_inclusive('\n')
        .filter(|line| !line.starts_with("step "));
    let begins: String = begins.collect();
    let said = otq_on(&["forecast", "--json", "-"], begins.as_bytes());
    let number = |name: &str| {
        let (_, rest) = said.out.split_once(&format!("\"{name}\": ")).expect(name);
        let digits = rest.split([',', '}']).next().expect(name);
        digits.parse().expect(name)
    };
    (said.status == 0).then(|| ["table_words", "answer_bytes", "records"].map(number))
}

/// Answers, refusal number and records taken of a text that is run.
fn ran(text: &str) -> (u64, u64, u64) {
    let print = otq_on(&["run", "-"], text.as_bytes()).out;
    let answers = print.lines().count() as u64 - 1;
    let end = print
        .lines()
        .last()
        .and_then(|line| line.strip_prefix("end "));
    let (refusal, taken) = end.and_then(|end| end.split_once(' ')).expect("an end");
    (
        answers,
        refusal.parse().expect("a number"),
        taken.parse().expect("a number"),
    )
}

/// Examples without a refusal in which all operations end: M1 to M6, M10-16, M11-49, the supplier's.
const EXACT: u64 = 9;

/// Each example stays within the forecast of its begins; the answer bytes are exact if all end.
#[test]
fn examples_stay_within() {
    let mut exact = 0;
    for (name, text) in examples() {
        let Some([_, answer_bytes, records]) = foreseen(&text) else {
            assert_eq!(name, "examples/known/M7.txt");
            continue;
        };
        let (answers, refusal, taken) = ran(&text);
        assert!(taken <= records, "{name}: {taken} of {records}");
        assert!(16 * answers <= answer_bytes, "{name}");
        let is_begin = |line: &&str| line.starts_with("put ") || line.starts_with("take ");
        let begins = text.lines().filter(is_begin).count() as u64;
        assert_eq!(answer_bytes, 16 * begins, "{name}");
        exact += u64::from(refusal == 0 && 16 * answers == answer_bytes);
    }
    assert_eq!(exact, EXACT);
}

/// Buffers as long as the forecast says are enough, and none shorter would be.
#[test]
fn what_is_foreseen_is_enough() {
    for name in ["examples/known/M2.txt", "examples/known/M5.txt", TEXT] {
        let text = String::from_utf8(content(name)).expect("a text");
        let [words, answer_bytes, _] = foreseen(&text).expect(name);
        let lent = |words, bytes| ran(&format!("table {words}\nanswers {bytes}\n{text}"));
        assert_eq!(lent(words, answer_bytes), ran(&text), "{name}");
        let (_, refusal, _) = lent(words - 1, answer_bytes);
        assert_eq!(refusal, 3, "{name}");
        let (_, refusal, _) = lent(words, answer_bytes - 1);
        assert_eq!(refusal, 9, "{name}");
    }
}
