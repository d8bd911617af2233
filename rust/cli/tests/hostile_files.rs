//! Every command on files that are not what it expects: it ends with a status and a message.

use crate::support::{
    assert_fails, command, content, file, otq, path, with_numbers, Said, LOG, STEPS, TEXT,
};
use reference::random::Random;
use std::fs;

/// Each command that reads a file, on this file.
fn commands(file: &str) -> Vec<Vec<&str>> {
    vec![
        vec!["run", file],
        with_numbers("run", &[file]),
        with_numbers("order", &[file]),
        with_numbers("desk", &["--licensed", "1", file]),
        vec!["price", "250", file],
        with_numbers("table", &[file]),
        with_numbers("trace", &[file]),
        with_numbers("check", &[file, LOG]),
        with_numbers("check", &[STEPS, file]),
        with_numbers("forecast", &[file]),
        vec!["show", "--as", "steps", file],
        vec!["show", "--as", "log", file],
        vec!["show", "--as", "order", file],
        vec!["encode", file],
        with_numbers("decode", &[file]),
    ]
}

fn each(file: &str, check: impl Fn(&[&str], Said)) {
    for words in commands(file) {
        let said = otq(&words);
        check(&words, said);
    }
}

/// Each command fails on the file, and says this of it.
fn each_fails(file: &str, message: &str) {
    each(file, |words, said| {
        let expected = Said {
            status: 2,
            out: String::new(),
            err: format!("otq: {file}: {message}\n"),
        };
        assert_eq!(said, expected, "{words:?}");
    });
}

#[test]
fn missing_files_and_directories() {
    each_fails(
        &path("no such file"),
        "No such file or directory (os error 2)",
    );
    let folder = path("a folder");
    fs::create_dir_all(&folder).expect("a folder");
    each_fails(&folder, "Is a directory (os error 21)");
}

#[test]
fn empty_files() {
    let empty = file("hostile.empty", b"");
    each(&empty, |words, said| {
        if words[0] == "price" {
            let told = "otq: refused with 15: ";
            assert_eq!((said.status, said.out.as_str()), (3, ""), "{words:?}");
            assert!(said.err.starts_with(told), "{said:?}");
            return;
        }
        // Without the steps or without the log of the example, the two differ.
        let status = i32::from(words[0] == "check");
        assert_eq!((said.status, said.err.as_str()), (status, ""), "{words:?}");
    });
}

/// Text where records are expected, and records where text is.
#[test]
fn the_wrong_sort_of_file() {
    each(TEXT, |words, said| match words[0] {
        "show" | "decode" => {
            assert_eq!(said.status, 2, "{words:?}");
            assert!(
                said.err.contains(": it holds text, and not "),
                "{words:?} {said:?}"
            );
        }
        "check" if words[5] == STEPS => {
            assert!(
                said.err.contains(": it holds text, and not "),
                "{words:?} {said:?}"
            );
        }
        "price" => {
            let told = ":2: expected `up to DELIVERY: CENTS`, found `processes 2`\n";
            assert_eq!((said.status, said.err), (2, format!("{TEXT}{told}")));
        }
        "forecast" => {
            assert_eq!(said.status, 3, "{words:?}");
            assert!(said.err.starts_with("otq: refused with 12: "), "{said:?}");
        }
        _ => assert_eq!((said.status, said.err.as_str()), (0, ""), "{words:?}"),
    });
    let prose = file(
        "prose.txt",
        b"Dear supplier,\nplease find the list enclosed.\n",
    );
    let messages = [
        format!("{prose}:1: expected put, take, step, raw, processes, operations, answers"),
        format!("{prose}:1: expected `up to DELIVERY: CENTS`, found `Dear supplier,`\n"),
    ];
    each(&prose, |words, said| {
        assert_eq!((said.status, said.out.as_str()), (2, ""), "{words:?}");
        let message = &messages[usize::from(words[0] == "price")];
        let told = said.err.starts_with(message) || said.err.contains("it holds text, and not ");
        assert!(told, "{words:?} {said:?}");
    });
}

/// Texts with bytes that no text has, and what is told of each.
pub fn spoilt(text: &str) -> Vec<(Vec<u8>, String)> {
    let of_16_bits = |mark: &[u16], order: fn(u16) -> [u8; 2]| -> Vec<u8> {
        let units = mark.iter().copied().chain(text.encode_utf16());
        units.flat_map(order).collect()
    };
    let spoilt = [
        (of_16_bits(&[0xfeff], u16::to_le_bytes), 0, "ff"),
        (of_16_bits(&[0xfeff], u16::to_be_bytes), 0, "fe"),
        (of_16_bits(&[], u16::to_le_bytes), 1, "00"),
        (of_16_bits(&[], u16::to_be_bytes), 0, "00"),
        ([text.as_bytes(), &[0]].concat(), text.len(), "00"),
        ([text.as_bytes(), b"\x1a\n"].concat(), text.len(), "1a"),
    ];
    let told = spoilt.map(|(bytes, at, byte)| {
        let what = "it seems to be a text, but byte";
        let save = "which no text has: save it as plain text (UTF-8)";
        (bytes, format!("{what} {at} is {byte}, {save}"))
    });
    told.to_vec()
}

/// Texts that are taken for records: no p and L are asked for, and no whole records offered.
#[test]
fn spoilt_texts() {
    let texts = [
        String::from_utf8(content(TEXT)).unwrap(),
        "processes 2\noperations 3\nput 7 by 0\n".to_string(),
    ];
    for (bytes, told) in texts.iter().flat_map(|text| spoilt(text)) {
        let spoilt = file("spoilt.txt", &bytes);
        for command in ["run", "order", "table", "trace", "forecast", "encode"] {
            assert_fails(&[command, &spoilt], 2, &format!("otq: {spoilt}: {told}\n"));
        }
        for words in [
            with_numbers("run", &[&spoilt]),
            with_numbers("check", &[&spoilt, LOG]),
            with_numbers("forecast", &[&spoilt]),
            with_numbers("desk", &["--licensed", "1", &spoilt]),
        ] {
            let said = otq(&words);
            let cause = format!("\n  likely cause: {told}\n");
            assert_eq!(said.status, 3, "{words:?}");
            assert!(said.err.contains(&cause), "{words:?} {said:?}");
        }
    }
    // What is no text either has no such cause.
    for other in [
        &b"PK\x03\x04\x14\0\0\0\x08\0 0123456789"[..],
        &[0x7f, b'E', b'L', b'F', 2, 1, 1, 0],
    ] {
        let other = file("no-text.bin", other);
        let said = otq(&with_numbers("run", &[&other]));
        assert!(!said.err.contains("seems to be a text"), "{said:?}");
        let message = format!("otq: {other}: it holds binary records, which do not say p and L: ");
        assert_fails(&["run", &other], 2, &message);
    }
}

/// Standard input that cannot be read is no empty list.
#[test]
fn standard_input_that_cannot_be_read() {
    let message = "otq: standard input: Bad file descriptor";
    for words in [with_numbers("run", &["-"]), vec!["price", "1", "-"]] {
        let output = fs::File::create(path("only-written")).expect("a file");
        let mut command = command(&words);
        let said = Said::of(command.stdin(output).output().expect("the program starts"));
        assert_eq!((said.status, said.out.as_str()), (2, ""), "{words:?}");
        assert!(said.err.starts_with(message), "{said:?}");
    }
}

/// Random bytes of every length up to some records: each command ends.
#[test]
fn noise() {
    let mut random = Random::new(3);
    for length in (0..40).chain([100, 1000, 9999]) {
        let noise: Vec<u8> = (0..length).map(|_| random.next() as u8).collect();
        let noise = file(&format!("noise-{length}.bin"), &noise);
        // Any status is right; that there is one is asserted of all.
        each(&noise, |_, _| ());
    }
}

/// The example torn at every byte of some records, and with one bit changed.
#[test]
fn torn_and_changed_lists() {
    let steps = content(STEPS);
    for length in (0..24).chain([991]) {
        let torn = file(&format!("torn-{length}.bin"), &steps[..length]);
        let said = otq(&with_numbers("run", &[&torn]));
        let status = if length % 8 == 0 { 0 } else { 3 };
        assert_eq!(said.status, status, "{length}");
    }
    for bit in (0..8 * steps.len()).step_by(61) {
        let mut steps = steps.clone();
        steps[bit / 8] ^= 1 << (bit % 8);
        let changed = file("changed.bin", &steps);
        for command in ["run", "order", "table", "trace", "forecast"] {
            otq(&with_numbers(command, &[&changed]));
        }
        otq(&with_numbers("check", &[&changed, LOG]));
        otq(&with_numbers("desk", &["--licensed", "1", &changed]));
    }
}

/// Lines that do not end, and control characters in them.
#[test]
fn hostile_texts() {
    let long = file("long-line.txt", &b"step 0 ".repeat(10_000));
    let message = format!("{long}:1: expected a line of at most 10000 bytes\n");
    for words in [
        &["run", &long][..],
        &["order", &long],
        &["desk", "--licensed", "0", &long],
        &["price", "1", &long],
        &["table", &long],
        &["trace", &long],
        &["forecast", &long],
        &["encode", &long],
    ] {
        assert_eq!(
            otq(words),
            Said {
                status: 2,
                out: String::new(),
                err: message.clone()
            }
        );
    }
    let returns = String::from_utf8(content(TEXT))
        .unwrap()
        .replace('\n', "\r");
    let returns = file("returns.txt", returns.as_bytes());
    let message =
        format!("{returns}:1: expected lines that end with LF or CR LF, found CR alone\n");
    for command in ["run", "order", "forecast", "encode"] {
        assert_fails(&[command, &returns], 2, &message);
    }
    assert_fails(&["price", "1", &returns], 2, &message);
    let comment = file(
        "long-comment.txt",
        &[b"# ".as_slice(), &b"x".repeat(9_000)].concat(),
    );
    assert_eq!(otq(&["run", &comment]).status, 0);
    // Past the bytes by which text is told from records.
    let late = [b"# a comment\n".repeat(1000), b"step \x1b[31m0\n".to_vec()].concat();
    let late = file("late-control.txt", &late);
    let said = otq(&["run", &late]);
    assert_eq!(
        said.err,
        format!("{late}:1001: expected a process from 0 to 255, found `\u{fffd}[31m0`\n")
    );
    let many = file("many-words.txt", &b"put 1 by 0 ".repeat(500));
    let said = otq(&["run", &many]);
    assert!(said.err.len() < 300, "{said:?}");
    assert!(said.err.ends_with("..`\n"), "{said:?}");
}
