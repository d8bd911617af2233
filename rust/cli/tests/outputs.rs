//! Outputs that fail: a reader that has gone, a full disk, files that may not be written.

use crate::support::{
    assert_fails, command, content, file, otq, path, repository, with_numbers, written, Said,
    BEGINS, LOG, SHEET, STEPS, TERMS, TEXT, WRONG,
};
use std::fs::{self, File};
use std::process::{Command, Stdio};
use std::time::{Duration, Instant};

/// A command of each sort that writes something, and its status.
fn commands() -> Vec<(Vec<&'static str>, i32)> {
    let make = ["make", "-p", "2", "-L", "9", "--pace", "one", "--seed", "1"];
    vec![
        (vec!["run", TEXT], 0),
        (vec!["run", TEXT, "--json"], 0),
        (vec!["run", "examples/known/M7.txt"], 3),
        (vec!["order", TEXT], 0),
        (vec!["check", TEXT, LOG], 0),
        (vec!["check", TEXT, WRONG, "--all"], 1),
        (vec!["desk", "--licensed", "0", TERMS], 0),
        (vec!["desk", "--licensed", "1", TERMS, "--json"], 3),
        (vec!["price", "250", SHEET], 0),
        (vec!["price", "4001", SHEET, "--json"], 3),
        (vec!["forecast", BEGINS], 0),
        (vec!["forecast", TEXT, "--json"], 3),
        (vec!["show", "--as", "log", LOG], 0),
        (vec!["table", TEXT], 0),
        (vec!["table", "examples/known/M7.txt", "--json"], 3),
        (vec!["nodes"], 0),
        (vec!["nodes", "--json"], 0),
        (vec!["trace", TEXT], 0),
        (make.to_vec(), 0),
        (vec!["encode", TEXT], 0),
        (with_numbers("decode", &[STEPS]), 0),
        (vec!["explain"], 0),
        (vec!["--help"], 0),
        (vec!["--version"], 0),
    ]
}

#[test]
fn a_reader_that_has_gone() {
    for (words, status) in commands() {
        let mut child = command(&words)
            .stdout(Stdio::piped())
            .stderr(Stdio::piped())
            .spawn()
            .expect("the program starts");
        drop(child.stdout.take());
        let said = Said::of(child.wait_with_output().expect("it ends"));
        assert_eq!(said.status, status, "{words:?}");
        assert_eq!(said.err.is_empty(), status != 3, "{words:?} {said:?}");
        assert!(!said.err.contains("pipe"), "{words:?} {said:?}");
    }
}

/// That the output failed is told once, and last. A refusal is told before, and counts for more.
fn assert_not_written(words: &[&str], status: i32, said: Said, why: &str) {
    let (refused, status) = match status {
        3 => ("otq: refused with ", 3),
        _ => ("", 2),
    };
    assert_eq!(said.status, status, "{words:?}");
    assert!(said.err.starts_with(refused), "{words:?} {said:?}");
    let message = format!("otq: standard output: {why}");
    let last = said.err.lines().last().unwrap_or_default();
    assert!(last.starts_with(&message), "{words:?} {said:?}");
    assert_eq!(said.err.matches(&message).count(), 1, "{words:?} {said:?}");
}

#[test]
fn a_full_disk() {
    // More than is held back before it is written.
    let long = [
        "make", "-p", "8", "-L", "500", "--pace", "uniform", "--seed", "1",
    ];
    for (words, status) in commands().into_iter().chain([(long.to_vec(), 0)]) {
        let full = File::create("/dev/full").expect("Linux has it");
        let mut command = command(&words);
        let output = command.stdout(full).output().expect("the program starts");
        assert_not_written(&words, status, Said::of(output), "No space left on device");
    }
}

/// Standard output that was opened to be read alone.
#[test]
fn standard_output_that_cannot_be_written() {
    for (words, status) in commands() {
        let input = File::open(repository().join(TEXT)).expect(TEXT);
        let mut command = command(&words);
        let output = command.stdout(input).output().expect("the program starts");
        assert_not_written(&words, status, Said::of(output), "Bad file descriptor");
    }
}

/// A text without an end is read no further than its records are.
#[test]
fn endless_text_and_a_reader_that_has_gone() {
    let script = "yes 'step 0' | timeout 300 \"$0\" encode - | head -c 3 | od -An -tx1; echo ${PIPESTATUS[1]}";
    let mut bash = Command::new("bash");
    bash.args(["-c", script, env!("CARGO_BIN_EXE_otq")]);
    let output = bash.output().expect("bash starts");
    assert_eq!(String::from_utf8_lossy(&output.stdout), " 00 00 00\n0\n");
}

/// Where standard error is full too, there is nobody to tell.
#[test]
fn standard_error_full() {
    let full = || File::create("/dev/full").expect("Linux has it");
    let mut command = command(&["run", "no such file"]);
    let status = command.stdout(full()).stderr(full()).status();
    assert_eq!(status.expect("the program starts").code(), Some(2));
}

#[test]
fn files_that_cannot_be_written() {
    for (words, option) in [
        (vec!["run", TEXT], "--log"),
        (vec!["order", TEXT], "--raw"),
        (vec!["desk", "--licensed", "0", TERMS], "--raw"),
        (
            vec!["make", "-p", "2", "-L", "1", "--pace", "one", "--seed", "1"],
            "-o",
        ),
    ] {
        let to = |out| [&words[..], &[option, out]].concat();
        let full = otq(&to("/dev/full"));
        assert_eq!((full.status, full.out.as_str()), (2, ""), "{full:?}");
        assert!(
            full.err.starts_with("otq: /dev/full: No space left"),
            "{full:?}"
        );
        assert_fails(&to("examples"), 2, "otq: examples: Is a directory");
        assert_fails(
            &to("no/such/folder/out"),
            2,
            "otq: no/such/folder/out: No such file",
        );
        assert_fails(
            &to("-"),
            2,
            "otq: a file to write has a name; `-` is standard input\n",
        );
    }
}

#[test]
fn what_was_read_is_not_written_over() {
    let steps = file("own-steps.bin", &content(STEPS));
    let link = path("own-steps.link");
    let _ = fs::remove_file(&link);
    fs::hard_link(&steps, &link).expect("a link");
    for out in [&steps, &link] {
        for words in [
            with_numbers("run", &[&steps, "--log", out]),
            with_numbers("order", &[&steps, "--raw", out]),
            with_numbers("desk", &["--licensed", "0", &steps, "--raw", out]),
        ] {
            let message = format!("otq: {out}: it was read, and is not written over\n");
            assert_fails(&words, 2, &message);
        }
    }
    // A file is the same if it is read as standard input.
    for option in ["run --log", "order --raw", "desk --licensed 0 --raw"] {
        let words = [
            &option.split(' ').collect::<Vec<_>>()[..],
            &[&link, "-p", "2", "-L", "3", "-"],
        ]
        .concat();
        let input = File::open(&steps).expect("a file");
        let said = Said::of(
            command(&words)
                .stdin(input)
                .output()
                .expect("the program starts"),
        );
        let message = format!("otq: {link}: it was read, and is not written over\n");
        assert_eq!(
            (said.status, said.out.as_str(), said.err),
            (2, "", message),
            "{words:?}"
        );
    }
    assert_eq!(fs::read(&steps).unwrap(), content(STEPS));
    // A device loses nothing.
    assert_eq!(
        written(&["run", "/dev/null", "--log", "/dev/null"]),
        "end 0 0\n"
    );
}

/// A list that comes slowly: after a second there is a line on standard error.
#[test]
fn progress() {
    let began = Instant::now();
    let mut child = command(&["run", "-"])
        .stdin(Stdio::piped())
        .stdout(Stdio::piped())
        .stderr(Stdio::piped())
        .spawn()
        .expect("the program starts");
    let stdin = child.stdin.take().expect("a pipe");
    std::thread::sleep(Duration::from_millis(1300));
    drop(stdin);
    let output = child.wait_with_output().expect("it ends");
    assert!(began.elapsed() > Duration::from_secs(1));
    let told = String::from_utf8_lossy(&output.stderr);
    assert!(told.starts_with("otq: reading standard input, "), "{told}");
    assert_eq!(Said::of(output).out, "end 0 0\n");
}
