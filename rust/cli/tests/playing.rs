//! `otq run`.

use crate::support::{
    assert_fails, content, file, otq, path, with_numbers, written, LOG, STEPS, TEXT, TORN,
};
use std::fs;

const PRINT: &str = "put 0 1 17 0 1\nput 1 1 32 0 2\ntake 1 2 17 0 3 40\ntake 0 2 20 1 2 30\n\
                     take 1 3 15 0 4 none\nput 0 3 17 0 5\nend 0 124\n";

#[test]
fn text_and_records_play_alike() {
    assert_eq!(written(&["run", TEXT]), PRINT);
    assert_eq!(written(&with_numbers("run", &[STEPS])), PRINT);
}

#[test]
fn the_log_is_that_of_the_supplier() {
    let log = path("playing.log");
    assert_eq!(written(&["run", TEXT, "--log", &log]), PRINT);
    assert_eq!(fs::read(&log).unwrap(), content(LOG));
}

#[test]
fn an_empty_list() {
    let empty = file("playing.empty", b"");
    assert_eq!(written(&["run", &empty]), "end 0 0\n");
    assert_eq!(written(&with_numbers("run", &[&empty])), "end 0 0\n");
    let comments = file("playing.comments", b"\n# nothing\n\n");
    assert_eq!(written(&["run", &comments]), "end 0 0\n");
}

#[test]
fn a_torn_list() {
    let log = path("playing-torn.log");
    let said = otq(&with_numbers("run", &[TORN, "--log", &log]));
    assert_eq!((said.status, said.out.as_str()), (3, "end 4 0\n"));
    let told = format!(
        "otq: refused with 4: the record bytes are not a multiple of 8\n  \
         likely cause: 61 whole records, then 3 bytes at byte 488 of {TORN}; --whole plays the 61\n  \
         `otq explain 4` says what to do\n"
    );
    assert_eq!(said.err, told);
    assert!(fs::metadata(&log).is_err());
    let whole = otq(&with_numbers("run", &[TORN, "--whole"]));
    assert_eq!(
        (whole.status, whole.out.as_str()),
        (0, "put 0 1 17 0 1\nput 1 1 32 0 2\nend 0 61\n")
    );
    let message = format!("otq: {TORN}: left out the last 3 bytes, from byte 488 on\n");
    assert_eq!(whole.err, message);
}

/// Lists that are refused: a name, the text, what is printed, and how what is told begins.
const REFUSED: [[&str; 4]; 10] = [
    [
        "processes",
        "processes 3\nput 1 by 0\nstep 0 x17\n",
        "end 1 0\n",
        "otq: refused with 1: the number of processes is not 2, 4 or 8\n  p is 3, FILE:1\n  \
         likely cause: with `processes 2` or `processes 4` or `processes 8` the whole list is taken\n",
    ],
    [
        "operations",
        "processes 2\noperations 0\nput 1 by 0\nstep 0 x17\n",
        "end 2 0\n",
        "otq: refused with 2: the most operations of a process are not 1 to 500\n  L is 0, FILE:2\n  \
         likely cause: with `operations 1` the whole list is taken\n",
    ],
    [
        "table",
        "processes 2\noperations 1\ntable 48\n",
        "end 3 0\n",
        "otq: refused with 3: the work table is too short\n  \
         48 table words are lent, and 49 are needed, FILE:3\n  `otq explain 3`",
    ],
    [
        "ill-formed",
        "processes 2\nraw 00 03 00 00 00 00 00 00\n",
        "end 5 0\n",
        "otq: refused with 5: a record is ill-formed\n  \
         record 1, byte 0: raw 00 03 00 00 00 00 00 00, FILE:2\n  \
         kind 3 is none of 0, 1 and 2\n  `otq explain 5`",
    ],
    [
        "begin-while-busy",
        "processes 2\nput 1 by 0\nput 2 by 0\n",
        "end 6 1\n",
        "otq: refused with 6: a process begins an operation while it is inside another\n  \
         record 2, byte 8: put 2 by 0 (00 01 00 00 02 00 00 00), FILE:3\n  \
         process 0 is still inside the operation that record 1 began\n  `otq explain 6`",
    ],
    [
        "step-while-idle",
        "processes 2\nput 1 by 0\nstep 0 x17\nstep 0\n",
        "put 0 1 17 0 1\nend 7 18\n",
        "otq: refused with 7: a process steps while it is inside no operation\n  \
         record 19, byte 144: step 0 (00 00 00 00 00 00 00 00), FILE:4\n  \
         the last operation of process 0 ended with record 18\n  \
         likely cause: with `processes 4` or `processes 8` the whole list is taken\n",
    ],
    [
        "nothing-begun",
        "processes 2\nput 1 by 1\nstep 0\n",
        "end 7 1\n",
        "otq: refused with 7: a process steps while it is inside no operation\n  \
         record 2, byte 8: step 0 (00 00 00 00 00 00 00 00), FILE:3\n  \
         process 0 has begun nothing before\n  `otq explain 7`",
    ],
    [
        "begun-all",
        "processes 2\noperations 1\nput 1 by 0\nstep 0 x17\nput 2 by 0\n",
        "put 0 1 17 0 1\nend 8 18\n",
        "otq: refused with 8: a process begins more operations than it may\n  \
         record 19, byte 144: put 2 by 0 (00 01 00 00 02 00 00 00), FILE:5\n  \
         process 0 has begun 1 operation, and L is 1\n  \
         likely cause: with `operations 2` the whole list is taken\n",
    ],
    [
        "begun-all-and-busy",
        "processes 2\noperations 1\nput 1 by 0\nstep 0 x16\nput 2 by 0\n",
        "end 8 17\n",
        "otq: refused with 8: a process begins more operations than it may\n  \
         record 18, byte 136: put 2 by 0 (00 01 00 00 02 00 00 00), FILE:5\n  \
         process 0 has begun 1 operation, and L is 1; it is still inside the one that record 1 began\n  \
         `otq explain 8`",
    ],
    [
        "answers-full",
        "processes 2\nanswers 15\nput 1 by 0\nstep 0 x17\n",
        "end 9 17\n",
        "otq: refused with 9: an operation ends with fewer than 16 answer bytes left\n  \
         record 18, byte 136: step 0 (00 00 00 00 00 00 00 00), FILE:4\n  \
         likely cause: the heading lends 15 answer bytes, which have room for 0 answers\n",
    ],
];

#[test]
fn each_refusal_of_a_text() {
    for [name, text, out, told] in REFUSED {
        let path = file(&format!("refused-{name}.txt"), text.as_bytes());
        let said = otq(&["run", &path]);
        assert_eq!(
            (said.status, said.out.as_str()),
            (3, out),
            "{name} {said:?}"
        );
        assert!(
            said.err.starts_with(&told.replace("FILE", &path)),
            "{said:?}"
        );
    }
}

/// What is wrong with an ill-formed record is told byte by byte.
#[test]
fn ill_formed_records() {
    for (index, (record, told)) in [
        ([2, 0, 0, 0, 0, 0, 0, 0], "process 2 is not below p, 2\n"),
        (
            [255, 9, 9, 9, 9, 9, 9, 9],
            "process 255 is not below p, 2\n",
        ),
        (
            [0, 255, 0, 0, 0, 0, 0, 0],
            "kind 255 is none of 0, 1 and 2\n",
        ),
        (
            [0, 1, 0, 1, 0, 0, 0, 0],
            "its bytes 2 and 3 are not both 0\n",
        ),
        (
            [0, 0, 0, 0, 0, 0, 0, 1],
            "it is no begin put, and its value is not 0\n",
        ),
        (
            [1, 2, 0, 0, 1, 0, 0, 0],
            "it is no begin put, and its value is not 0\n",
        ),
    ]
    .into_iter()
    .enumerate()
    {
        let path = file(&format!("ill-formed-{index}.bin"), &record);
        let said = otq(&with_numbers("run", &[&path]));
        assert_eq!(
            (said.status, said.out.as_str()),
            (3, "end 5 0\n"),
            "{record:?}"
        );
        assert!(said.err.contains(&format!("\n  {told}")), "{said:?}");
    }
}

#[test]
fn a_wrong_p_or_l_is_found() {
    let run = |p: &str, l: &str| otq(&["run", "-p", p, "-L", l, STEPS]);
    for (p, l, cause) in [
        ("4", "3", "with -p 2 the whole list is taken"),
        ("8", "500", "with -p 2 the whole list is taken"),
        ("3", "3", "with -p 2 the whole list is taken"),
        ("2", "2", "with -L 3 the whole list is taken"),
        ("2", "501", "with -L 3 the whole list is taken"),
        ("4", "2", "with -p 2 -L 3 the whole list is taken"),
        ("0", "0", "with -p 2 -L 3 the whole list is taken"),
    ] {
        let said = run(p, l);
        assert_eq!(said.status, 3, "{p} {l}");
        assert!(
            said.err.contains(&format!("\n  likely cause: {cause}\n")),
            "{said:?}"
        );
    }
}

#[test]
fn a_log_in_the_place_of_the_steps() {
    let said = otq(&with_numbers("run", &[LOG]));
    assert_eq!((said.status, said.out.as_str()), (3, "end 5 0\n"));
    assert!(
        said.err
            .contains("likely cause: the file holds answer records"),
        "{said:?}"
    );
}

#[test]
fn json() {
    let words = with_numbers("run", &[TORN, "--json", "--whole"]);
    let answers = r#"{"process": 0, "kind": "put done", "own_steps": 17, "helps": 0, "value": 0, "serial": 1, "root_block": 1}, {"process": 1, "kind": "put done", "own_steps": 32, "helps": 0, "value": 0, "serial": 1, "root_block": 2}"#;
    let expected = format!(r#"{{"refusal": null, "taken": 61, "answers": [{answers}]}}"#);
    assert_eq!(otq(&words).out, format!("{expected}\n"));
    // Process 1 helps, and process 0 does not.
    let helped = written(&["run", "--json", "examples/known/M6.txt"]);
    let answers = r#""answers": [{"process": 1, "kind": "put done", "own_steps": 20, "helps": 1, "value": 0, "serial": 1, "root_block": 1}, {"process": 0, "kind": "put done", "own_steps": 15, "helps": 0, "value": 0, "serial": 1, "root_block": 1}]"#;
    assert!(helped.contains(answers), "{helped}");
    let refused = otq(&["run", "--json", "examples/known/M9.txt"]);
    assert_eq!(refused.status, 3);
    let refusal = r#"{"number": 6, "name": "BeginWhileBusy", "meaning": "a process begins an operation while it is inside another", "record": 2, "byte": 8, "line": 5, "words": "put 2 by 0", "standing": "process 0 is still inside the operation that record 1 began", "likely_cause": null}"#;
    let expected = format!(r#"{{"refusal": {refusal}, "taken": 1, "answers": []}}"#);
    assert_eq!(refused.out, format!("{expected}\n"));
    let torn = otq(&with_numbers("run", &[TORN, "--json"]));
    assert!(
        torn.out
            .starts_with(r#"{"refusal": {"number": 4, "name": "RecordsTorn""#),
        "{torn:?}"
    );
    assert!(torn
        .out
        .contains(r#""record": null, "byte": null, "line": null, "words": null"#));
}

#[test]
fn answers_up_to_a_refusal_are_written() {
    let log = path("refused.log");
    let said = otq(&["run", "examples/known/M7.txt", "--log", &log]);
    assert_eq!(said.status, 3);
    assert_eq!(fs::read(&log).unwrap().len(), 16);
}

#[test]
fn text_mistakes() {
    let path = file(
        "mistake.txt",
        b"put 7 by 0\n# \xff may stand here\nstep 0 \xff\n",
    );
    let message = format!("{path}:3: expected a count from x1 to x1000000, found");
    for command in ["run", "order", "table", "trace", "forecast", "encode"] {
        let said = otq(&[command, &path]);
        assert_eq!(said.status, 2, "{said:?}");
        assert!(said.err.starts_with(&message), "{said:?}");
    }
    assert_fails(&["check", &path, LOG], 2, &message);
}
