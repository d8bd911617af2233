//! The words of a command line.

use crate::support::{
    assert_fails, content, file, otq, otq_on, path, with_numbers, written, LOG, NUMBERS, SHEET,
    STEPS, TERMS, TEXT,
};
use std::ffi::OsStr;
use std::fs;
use std::os::unix::ffi::OsStrExt;

const COMMANDS: [&str; 14] = [
    "run", "order", "check", "desk", "price", "forecast", "show", "table", "nodes", "trace",
    "make", "encode", "decode", "explain",
];

#[test]
fn help_and_version() {
    let help = written(&["--help"]);
    for command in COMMANDS {
        assert!(help.contains(&format!("\n  otq {command}")), "{command}");
        let of_command = written(&[command, "--help"]);
        assert!(
            of_command.starts_with(&format!("otq {command} ")),
            "{of_command}"
        );
        assert_eq!(written(&["help", command]), of_command);
        // Help is given whatever else is said.
        assert_eq!(
            written(&[command, "no such file", "--nothing", "-h"]),
            of_command
        );
    }
    let forecast = written(&["forecast", "--help"]);
    assert!(forecast.contains("with these begins in this order"));
    assert!(forecast.contains("\n\nBEGINS is ") && !forecast.contains("\n\nSTEPS is "));
    // The longest option has room before its meaning.
    let desk = written(&["desk", "--help"]);
    assert!(desk.contains("\n  --licensed K  the process that may put entries, 0 to p - 1\n"));
    let price = written(&["price", "--help"]);
    assert!(price.contains("\n\nSHEET is ") && !price.contains("\n\nSTEPS is "));
    assert!(price.ends_with(" that cannot be written, 3 refused.\n"));
    assert_eq!(written(&["help"]), help);
    assert_eq!(written(&["-h"]), help);
    assert_eq!(
        written(&["--version"]),
        "otq 0.1.0, with the proved library, with the proved delivery desk, with the proved price sheet\n"
    );
    assert_eq!(written(&["-V"]), written(&["--version"]));
}

#[test]
fn no_command_and_unknown_commands() {
    assert_fails(&[], 2, "otq plays the steps of a shared queue");
    assert_fails(
        &["play"],
        2,
        "otq: there is no command `play`; `otq --help` lists them\n",
    );
    assert_fails(&["-p", "2"], 2, "otq: there is no command `-p`");
    assert_fails(&[""], 2, "otq: there is no command ``");
}

#[test]
fn wrong_options() {
    let usage = "usage: otq run [-p P -L L] STEPS [--log OUT] [--whole] [--json]\n";
    for (words, mistake) in [
        (&["run", "--all", TEXT][..], "there is no option --all"),
        (&["run", "-x", TEXT], "there is no option -x"),
        (&["run", TEXT, "-p"], "-p needs its P"),
        (&["run", TEXT, "-p", "2", "-p", "2"], "-p is given twice"),
        (&["run", TEXT, "--json=yes"], "--json has no value"),
        (&["run"], "a file is missing"),
        (&["run", "--whole"], "a file is missing"),
        (
            &["run", TEXT, TEXT],
            "`examples/supplier/exercise.txt` is too much",
        ),
    ] {
        assert_fails(words, 2, &format!("otq: {mistake}; {usage}"));
    }
    assert_fails(
        &["check", TEXT],
        2,
        "otq: a file is missing; usage: otq check",
    );
    assert_fails(
        &["forecast"],
        2,
        "otq: a file is missing; usage: otq forecast [-p P -L L] BEGINS [--whole] [--json]\n",
    );
    assert_fails(
        &["desk", "--licensed", "0"],
        2,
        "otq: a file is missing; usage: otq desk --licensed K [-p P -L L] STEPS [--raw OUT] ",
    );
    let price = "usage: otq price COUNT SHEET [--json]\n";
    for (words, mistake) in [
        (&["price"][..], "COUNT and SHEET are both needed"),
        (&["price", SHEET], "COUNT and SHEET are both needed"),
        (&["price", "1", SHEET, "2"], "`2` is too much"),
        (
            &["price", "1", SHEET, "--whole"],
            "there is no option --whole",
        ),
        (&["price", "-1", SHEET], "there is no option -1"),
    ] {
        assert_fails(words, 2, &format!("otq: {mistake}; {price}"));
    }
    assert_fails(
        &["check", "-", "-"],
        2,
        "otq: standard input can be read once; ",
    );
}

#[test]
fn wrong_numbers() {
    for number in [
        "two",
        "-1",
        "+2",
        "2.0",
        "",
        "0x2",
        "4294967296",
        "99999999999999999999",
    ] {
        for (words, meant) in [
            (
                &["run", TEXT, "-p"][..],
                "the number of processes, 2, 4 or 8",
            ),
            (
                &["run", TEXT, "-L"],
                "the most operations of one process, 1 to 500",
            ),
            (
                &["decode", STEPS, "-L"],
                "the most operations of one process, 1 to 500",
            ),
            (
                &["desk", TERMS, "--licensed"],
                "the process that may put entries, 0 to p - 1",
            ),
        ] {
            let (option, words) = (words[2], [words, &[number]].concat());
            let message = format!("otq: {option}: expected {meant}, found `{number}`\n");
            assert_fails(&words, 2, &message);
        }
    }
    let from = "otq: --from: expected the first record told, counted from 1, found `-1`\n";
    assert_fails(&["trace", TEXT, "--from", "-1"], 2, from);
    let make = [
        "make", "-p", "2", "-L", "1", "--pace", "one", "--seed", "-1",
    ];
    let seed = "otq: --seed: expected a number from 0 on, found `-1`\n";
    assert_fails(&make, 2, seed);
    // A long word is told in part.
    let said = otq(&["run", TEXT, "-p", &"9".repeat(10_000)]);
    assert!(
        said.err.len() < 200 && said.err.ends_with("999..`\n"),
        "{said:?}"
    );
    for count in ["ten", "", "1,000", "2.5", "-", SHEET] {
        let message = format!("otq: COUNT: expected 0 to 4000, found `{count}`\n");
        assert_fails(&["price", count, SHEET], 2, &message);
    }
    assert_fails(
        &["price", "4294967296", SHEET],
        2,
        "otq: COUNT: expected 0 to 4000, found `4294967296`\n",
    );
}

#[test]
fn options_anywhere_and_joined() {
    let expected = written(&with_numbers("run", &[STEPS]));
    assert_eq!(written(&["run", STEPS, "-L", "3", "-p", "2"]), expected);
    assert_eq!(written(&["run", "-L=3", STEPS, "-p=2"]), expected);
    assert_eq!(
        written(&[&["run"], &NUMBERS[..], &["--", STEPS]].concat()),
        expected
    );
    for name in ["-p", "-h", "--help"] {
        let message = format!("otq: {name}: No such file");
        assert_fails(&["run", "--", name], 2, &message);
    }
}

/// Binary records do not say p and L, and a text does.
#[test]
fn p_and_l() {
    let message = format!("otq: {STEPS}: it holds binary records, which do not say p and L: give ");
    for words in [
        &["run", STEPS][..],
        &["order", "-p", "2", STEPS],
        &["trace", "-L", "3", STEPS],
        &["table", STEPS],
        &["forecast", STEPS],
        &["desk", "--licensed", "0", STEPS],
    ] {
        assert_fails(words, 2, &message);
    }
    assert_fails(&["check", STEPS, LOG], 2, &message);
    let message = format!("otq: {TEXT}: its heading says `processes 2`, and not -p 4\n");
    assert_fails(&["run", "-p", "4", TEXT], 2, &message);
    let message = format!("otq: {TEXT}: its heading says `operations 3`, and not -L 4\n");
    for command in ["run", "forecast"] {
        assert_fails(&[command, "-L", "4", TEXT], 2, &message);
    }
    assert_eq!(
        written(&with_numbers("run", &[TEXT])),
        written(&["run", TEXT])
    );
    // A heading that says nothing leaves them to the command line, and they are 4 and 24 else.
    let list = b"put 7 by 1\nstep 1 x17\n";
    assert_eq!(
        otq_on(&["run", "-p", "2", "-"], list).out,
        "put 1 1 17 0 1\nend 0 18\n"
    );
    assert_eq!(otq_on(&["run", "-"], list).out, "end 0 18\n");
    assert_eq!(
        otq_on(&["forecast", "-p", "2", "-"], b"put 7 by 1\n").out,
        "room for 1 operation: 693 words, 16 answer bytes, at most 42 records\n"
    );
}

#[test]
fn standard_input_is_a_file() {
    let steps = content(STEPS);
    let log = content(LOG);
    let expected = written(&["run", TEXT]);
    assert_eq!(otq_on(&with_numbers("run", &["-"]), &steps).out, expected);
    assert_eq!(otq_on(&["run", "-"], &content(TEXT)).out, expected);
    assert_eq!(
        otq_on(&with_numbers("check", &[STEPS, "-"]), &log).out,
        "same, 6 answers\n"
    );
    assert_eq!(
        otq_on(&with_numbers("check", &["-", LOG]), &steps).out,
        "same, 6 answers\n"
    );
    let said = otq_on(&["run", "-"], b"put 7\n");
    assert_eq!(
        said.err,
        "standard input:1: expected `put VALUE by PROCESS`, found `put 7`\n"
    );
}

/// A file name may be any bytes, after an option too.
#[test]
fn names_that_are_no_text() {
    let name = OsStr::from_bytes(b"\xff\xfe");
    let said = otq(&[OsStr::new("run"), name]);
    assert_eq!(said.status, 2);
    assert!(said.err.contains("No such file"), "{said:?}");
    assert_eq!(otq(&[name]).status, 2);
    assert_eq!(otq(&[OsStr::new("explain"), name]).status, 2);
    assert_eq!(otq(&[OsStr::new("run"), OsStr::new("-p"), name]).status, 2);
    let log = [path("no-text-").as_bytes(), b"\xff"].concat();
    let joined = [b"--log=", &log[..]].concat();
    let said = otq(&[
        OsStr::new("run"),
        OsStr::new(TEXT),
        OsStr::from_bytes(&joined),
    ]);
    assert_eq!((said.status, said.err.as_str()), (0, ""));
    let written = fs::read(OsStr::from_bytes(&log)).expect("the log");
    assert_eq!(written, content(LOG));
    let said = otq(&[OsStr::new("run"), OsStr::from_bytes(b"-\xff")]);
    assert!(
        said.err.starts_with("otq: there is no option -\u{fffd}; "),
        "{said:?}"
    );
}

/// What a file name does to a terminal is not done by a message, and no name at all is seen.
#[test]
fn names_with_control_characters() {
    let told = "\u{fffd}[31m\u{fffd}";
    let name = "\x1b[31m\n";
    assert_fails(&["run", name], 2, &format!("otq: {told}: No such file"));
    assert_fails(
        &["run", TEXT, name],
        2,
        &format!("otq: `{told}` is too much; "),
    );
    assert_fails(&[name], 2, &format!("otq: there is no command `{told}`; "));
    assert_fails(
        &["run", &format!("-{name}")],
        2,
        &format!("otq: there is no option -{told}; "),
    );
    let text = file(name, b"put 7\n");
    let said = otq(&["run", &text]);
    let shown = text.replace(name, told);
    let mistake = "1: expected `put VALUE by PROCESS`, found `put 7`\n";
    assert_eq!(said.err, format!("{shown}:{mistake}"));
    assert_fails(&["run", ""], 2, "otq: ``: No such file");
}
