//! `otq show`.

use crate::support::{assert_fails, file, otq, path, written, LOG, STEPS, TEXT, TORN};

#[test]
fn steps_log_and_order() {
    let steps = written(&["show", "--as", "steps", STEPS]);
    assert!(steps.starts_with("1 put 30 by 0\n2 step 0\n"), "{steps}");
    assert!(steps.ends_with("\n124 step 0\n"), "{steps}");
    let log = written(&["show", "--as", "log", LOG]);
    assert!(
        log.starts_with(
            "1 put 0 1 17 0 1\n2 put 1 1 32 0 2\n3 take 1 2 17 0 3 40\n4 take 0 2 20 1 2 30\n"
        ),
        "{log}"
    );
    assert!(log.contains("\n5 take 1 3 15 0 4 none\n"), "{log}");
    let order = path("shown-order.bin");
    written(&["order", TEXT, "--raw", &order]);
    let order = written(&["show", "--as", "order", &order]);
    assert!(
        order.starts_with("1 put 0 1 1\n2 put 1 1 2\n3 take 0 2 2\n"),
        "{order}"
    );
}

/// What is no record of the sort is shown as its bytes.
#[test]
fn other_bytes() {
    let noise = file("noise.bin", &[0x80; 32]);
    let raw = |count| format!("raw{}", " 80".repeat(count));
    let lines = |count: usize| {
        let lines = (1..=32 / count).map(|number| format!("{number} {}\n", raw(count)));
        lines.collect::<String>()
    };
    assert_eq!(written(&["show", "--as", "steps", &noise]), lines(8));
    assert_eq!(written(&["show", "--as", "log", &noise]), lines(16));
    assert_eq!(written(&["show", "--as", "order", &noise]), lines(8));
}

#[test]
fn torn_files() {
    let said = otq(&["show", "--as", "steps", TORN]);
    assert_eq!(said.status, 2);
    assert!(said.out.ends_with("\n61 step 1\n"), "{said:?}");
    let message = "torn: 61 whole records, then 3 bytes at byte 488: 01 00 00\n";
    assert_eq!(said.err, format!("otq: {TORN}: {message}"));
    let one = file("one-byte.bin", &[0]);
    let said = otq(&["show", "--as", "log", &one]);
    assert_eq!((said.status, said.out.as_str()), (2, ""));
    assert!(
        said.err
            .ends_with("torn: 0 whole records, then 1 byte at byte 0: 00\n"),
        "{said:?}"
    );
}

#[test]
fn empty_files_and_texts() {
    let empty = file("showing.empty", b"");
    for what in ["steps", "log", "order"] {
        assert_eq!(written(&["show", "--as", what, &empty]), "");
        let message = format!("otq: {TEXT}: it holds text, and not ");
        assert_fails(&["show", "--as", what, TEXT], 2, &message);
    }
}

#[test]
fn what_a_file_holds_is_said() {
    let message = "otq: give --as steps, --as log or --as order\n";
    assert_fails(&["show", STEPS], 2, message);
    assert_fails(&["show", "--as", "text", STEPS], 2, message);
}
