//! `otq encode` and `otq decode`.

use crate::support::{
    assert_fails, bytes, content, file, otq, with_numbers, written, LOG, STEPS, TEXT, TORN,
};

#[test]
fn the_example() {
    assert_eq!(bytes(&["encode", TEXT]), content(STEPS));
    let decoded = written(&with_numbers("decode", &[STEPS]));
    let text = String::from_utf8(content(TEXT)).unwrap();
    let (_, without_comment) = text.split_once('\n').unwrap();
    assert_eq!(decoded, without_comment);
}

/// The heading is written, so that what was decoded plays alike, whatever p and L are.
#[test]
fn what_was_decoded_plays_alike() {
    for (p, l) in [
        ("2", "3"),
        ("4", "3"),
        ("2", "2"),
        ("3", "0"),
        ("4294967295", "500"),
    ] {
        let text = written(&["decode", "-p", p, "-L", l, STEPS]);
        let text = file(&format!("decoded-{p}-{l}.txt"), text.as_bytes());
        let binary = otq(&["run", "-p", p, "-L", l, STEPS]);
        let decoded = otq(&["run", &text]);
        assert_eq!(
            (decoded.status, decoded.out),
            (binary.status, binary.out),
            "{p} {l}"
        );
    }
}

/// The records before a mistake are not written: they could be taken for the list.
#[test]
fn a_mistake_after_records() {
    let text = [&content(TEXT)[..], b"step 0 x900000\nstep 300\n"].concat();
    let text = file("encode-mistake.txt", &text);
    let message = format!("{text}:21: expected a process from 0 to 255, found `300`\n");
    assert_fails(&["encode", &text], 2, &message);
}

#[test]
fn the_wrong_sort_of_file() {
    let message = format!("otq: {STEPS}: it holds binary records, and not text; `otq decode`");
    assert_fails(&["encode", STEPS], 2, &message);
    let message = format!("otq: {TEXT}: it holds text, and not binary records");
    assert_fails(&with_numbers("decode", &[TEXT]), 2, &message);
    // A log is no text, and as step records its bytes are no lines but raw ones.
    let log = written(&with_numbers("decode", &[LOG]));
    assert!(
        log.starts_with("processes 2\noperations 3\nraw 00 01 11 00 "),
        "{log}"
    );
}

#[test]
fn torn_and_empty_files() {
    let message =
        format!("otq: {TORN}: byte 488: expected a record of 8 bytes, found 3; `otq show");
    assert_fails(&with_numbers("decode", &[TORN]), 2, &message);
    let empty = file("coding.empty", b"");
    assert_eq!(bytes(&["encode", &empty]), b"");
    assert_eq!(
        written(&with_numbers("decode", &[&empty])),
        "processes 2\noperations 3\n"
    );
}

#[test]
fn p_and_l_are_needed() {
    let message = "otq: records do not say p and L: give -p P and -L L\n";
    assert_fails(&["decode", STEPS], 2, message);
    assert_fails(&["decode", "-p", "2", STEPS], 2, message);
}

#[test]
fn the_printing_program_has_one_heading() {
    let m2 = "examples/known/M2.txt";
    assert_eq!(bytes(&["encode", "--print", m2]), bytes(&["encode", m2]));
    for name in ["M1", "M3", "M10", "M11"] {
        let path = format!("examples/known/{name}.txt");
        let message =
            format!("otq: {path}: the printing program has processes 4, operations 24 and");
        assert_fails(&["encode", "--print", &path], 2, &message);
    }
}

/// A text that some editors write.
#[test]
fn byte_order_mark_and_line_ends() {
    let text = b"\xef\xbb\xbfprocesses 2\r\nput 7 by 1\r\nstep 1\r\n";
    let text = file("editor.txt", text);
    assert_eq!(
        bytes(&["encode", &text]),
        [1, 1, 0, 0, 7, 0, 0, 0, 1, 0, 0, 0, 0, 0, 0, 0]
    );
}
