//! Files of 100 million bytes, within twice their size in memory.

use crate::support::{file, path, repository, with_numbers, Said, LOG, STEPS, TEXT};
use std::fs::File;
use std::process::{Command, Stdio};

const BYTES: u64 = 100_000_000;

/// The command with no more memory than twice the size of a huge file, in a shell that reads the
/// beginning of what it writes.
fn otq_limited(words: &[&str]) -> Said {
    otq_reading(words, Stdio::null())
}

/// The same, with this on standard input.
fn otq_reading(words: &[&str], input: Stdio) -> Said {
    let limit = format!("ulimit -v {}; set -o pipefail", 2 * BYTES / 1024);
    let script = format!("{limit}; timeout 300 \"$@\" | head -c 2000");
    let mut command = Command::new("bash");
    command.args(["-c", &script, "otq", env!("CARGO_BIN_EXE_otq")]);
    command.args(words).current_dir(repository());
    // The thread that tells the progress would reserve addresses, of which it uses few.
    command.env("MALLOC_ARENA_MAX", "1");
    Said::of(command.stdin(input).output().expect("bash starts"))
}

/// A file of zero bytes that takes no room on the disk.
fn zeros(name: &str) -> String {
    zeros_of(name, BYTES)
}

fn zeros_of(name: &str, length: u64) -> String {
    let path = path(name);
    let file = File::create(&path).expect("a file");
    file.set_len(length).expect("a long file");
    path
}

/// How what is told of a file begins that is longer than any that is read.
const TOO_LONG: &str = "it has more than 1,000,000,000 bytes, the most that are read\n";

#[test]
fn a_huge_list_of_records() {
    let huge = zeros("huge.steps");
    for (words, number) in [
        (with_numbers("run", &[&huge]), 7),
        (with_numbers("order", &[&huge]), 7),
        (with_numbers("desk", &["--licensed", "0", &huge]), 7),
        (with_numbers("trace", &[&huge]), 7),
        (with_numbers("table", &[&huge, "--json"]), 7),
        (with_numbers("check", &[&huge, LOG]), 7),
        (with_numbers("forecast", &[&huge]), 12),
        (vec!["price", "1", &huge], 15),
    ] {
        let said = otq_limited(&words);
        assert_eq!(said.status, 3, "{words:?} {said:?}");
        let told = format!("otq: refused with {number}: ");
        assert!(said.err.starts_with(&told), "{words:?} {said:?}");
    }
    let input = File::open(&huge).expect("a file");
    let said = otq_reading(&with_numbers("run", &["-"]), input.into());
    assert_eq!(
        (said.status, said.out.as_str()),
        (3, "end 7 0\n"),
        "{said:?}"
    );
}

/// A begin and then nothing but steps: it is refused at the first step too many.
#[test]
fn a_huge_list_of_steps() {
    let huge = path("huge-begun.steps");
    std::fs::write(&huge, [0, 1, 0, 0, 7, 0, 0, 0]).expect("a file");
    let grown = File::options().write(true).open(&huge).expect("a file");
    grown.set_len(BYTES).expect("a long file");
    let said = otq_limited(&with_numbers("run", &[&huge]));
    assert_eq!(
        (said.status, said.out.as_str()),
        (3, "put 0 1 17 0 1\nend 7 18\n")
    );
}

#[test]
fn a_huge_log() {
    let huge = zeros("huge.log");
    for more in [&[][..], &["--all"], &["--all", "--json"]] {
        let words = [&with_numbers("check", &[STEPS, &huge])[..], more].concat();
        let said = otq_limited(&words);
        assert_eq!((said.status, said.err.as_str()), (1, ""), "{words:?}");
        assert!(said.out.contains("differs"), "{words:?} {said:?}");
    }
}

#[test]
fn huge_files_shown_and_decoded() {
    let huge = zeros("huge.bin");
    for words in [
        vec!["show", "--as", "steps", &huge],
        vec!["show", "--as", "log", &huge],
        with_numbers("decode", &[&huge]),
    ] {
        let said = otq_limited(&words);
        assert_eq!(
            (said.status, said.err.as_str()),
            (0, ""),
            "{words:?} {said:?}"
        );
        assert!(!said.out.is_empty(), "{words:?}");
    }
}

#[test]
fn a_huge_file_with_the_wrong_sort() {
    let huge = zeros("huge.text");
    let said = otq_limited(&["encode", &huge]);
    assert_eq!(said.status, 2);
    assert!(
        said.err.contains("it holds binary records, and not text"),
        "{said:?}"
    );
}

/// A hundred million steps in a hundred lines, and a hundred million bytes of lines.
#[test]
fn huge_texts() {
    let steps = format!("put 1 by 0\n{}", "step 0 x1000000\n".repeat(100));
    let many_steps = file("many-steps.txt", steps.as_bytes());
    let many_lines = path("many-lines.txt");
    let lines = [
        b"processes 4\nput 1 by 0\n".to_vec(),
        b"step 0\n".repeat(BYTES as usize / 28),
    ]
    .concat();
    std::fs::write(&many_lines, &lines).expect("a file");
    for (list, line) in [(&many_steps, 2), (&many_lines, 34)] {
        let said = otq_limited(&["run", list]);
        assert_eq!(
            (said.status, said.out.as_str()),
            (3, "put 0 1 31 0 1\nend 7 32\n"),
            "{list}"
        );
        assert!(said.err.contains(&format!(", {list}:{line}\n")), "{said:?}");
        for words in [
            &["order"][..],
            &["desk", "--licensed", "0"],
            &["table"],
            &["trace"],
            &["forecast"],
        ] {
            let words = [words, &[list]].concat();
            assert_eq!(otq_limited(&words).status, 3, "{words:?}");
        }
    }
    // Its reader is gone after some lines.
    assert_eq!(otq_limited(&["encode", &many_steps]).status, 0);
}

/// More begins than a text is kept for: the first too many is told.
#[test]
fn huge_lists_of_begins() {
    let text = b"processes 4\ntake by 1\n".to_vec();
    let text = [text, b"put 1 by 0\n".repeat(BYTES as usize / 80)].concat();
    let text = file("many-begins.txt", &text);
    let records = file(
        "many-begins.bin",
        &[0, 1, 0, 0, 7, 0, 0, 0].repeat(BYTES as usize / 8),
    );
    for (words, record) in [
        (
            vec!["forecast", &text],
            format!("record 26, byte 200: put 1 by 0 (00 01 00 00 01 00 00 00), {text}:27\n"),
        ),
        (
            with_numbers("forecast", &[&records]),
            "record 4, byte 24: put 7 by 0 ".to_string(),
        ),
    ] {
        let said = otq_limited(&words);
        assert_eq!((said.status, said.out.as_str()), (3, ""), "{said:?}");
        assert!(said.err.starts_with("otq: refused with 8: "), "{said:?}");
        assert!(said.err.contains(&format!("\n  {record}")), "{said:?}");
    }
}

/// More bands than a sheet has: all are read, and few are kept.
#[test]
fn a_huge_price_sheet() {
    let line = b"up to 1: 2\n";
    let lines = BYTES as usize / line.len();
    let huge = file("huge-sheet.txt", &line.repeat(lines));
    let said = otq_limited(&["price", "1", &huge]);
    let told = format!("(01 00 00 00 02 00 00 00), {huge}:9\n  the sheet has {lines} bands\n");
    assert_eq!((said.status, said.out.as_str()), (3, ""), "{said:?}");
    assert!(said.err.contains(&told), "{said:?}");
}

/// Input without an end.
#[test]
fn endless_input() {
    let said = otq_limited(&with_numbers("run", &["/dev/zero"]));
    assert_eq!((said.status, said.out.as_str()), (2, ""));
    assert!(said.err.starts_with("otq: /dev/zero: "), "{said:?}");
    let said = otq_limited(&["check", TEXT, "/dev/urandom"]);
    assert_eq!(said.status, 2, "{said:?}");
    let comment = format!("#{}", "x".repeat(9_000));
    for words in [&["run", "-"][..], &["price", "1", "-"], &["encode", "-"]] {
        let mut yes = Command::new("yes");
        let mut yes = yes
            .arg(&comment)
            .stdout(Stdio::piped())
            .spawn()
            .expect("yes starts");
        let input = yes.stdout.take().expect("a pipe");
        let said = otq_reading(words, input.into());
        yes.wait().expect("yes ends");
        assert_eq!((said.status, said.out.as_str()), (2, ""), "{words:?}");
        assert_eq!(said.err, format!("otq: standard input: {TOO_LONG}"));
    }
}

/// Of a file, its length tells at once.
#[test]
fn too_long_a_file() {
    let huge = zeros_of("too-long.bin", 1_000_000_000_000);
    for words in [
        with_numbers("run", &[&huge]),
        vec!["show", "--as", "log", &huge],
        vec!["price", "1", &huge],
        vec!["encode", &huge],
    ] {
        let said = otq_limited(&words);
        assert_eq!((said.status, said.out.as_str()), (2, ""), "{words:?}");
        assert_eq!(said.err, format!("otq: {huge}: {TOO_LONG}"));
    }
}
