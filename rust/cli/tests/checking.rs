//! `otq check`.

use crate::support::{
    content, file, otq, path, with_numbers, written, LOG, NO_HELPS, STEPS, TEXT, TORN, WRONG,
};

/// What `check` says of a log, with the example's steps.
fn checked(name: &str, log: &[u8], more: &[&str]) -> crate::support::Said {
    let log = file(name, log);
    otq(&[&["check", TEXT, &log], more].concat())
}

#[test]
fn the_same_log() {
    assert_eq!(written(&["check", TEXT, LOG]), "same, 6 answers\n");
    assert_eq!(
        written(&with_numbers("check", &[STEPS, LOG])),
        "same, 6 answers\n"
    );
    let json = written(&["check", TEXT, LOG, "--json"]);
    let expected = r#"{"verdict": "same", "refusal": null, "answers_in_log": 6, "differences": [], "count": 0}"#;
    assert_eq!(json, format!("{expected}\n"));
    let empty = file("checking.empty", b"");
    assert_eq!(written(&["check", &empty, &empty]), "same, 0 answers\n");
}

/// What is told of a difference at answer 4: its rows of helps and value, and the first byte.
fn difference(helps: &str, value: &str, byte: &str) -> String {
    format!(
        "\
differs at answer 4, byte 48 of the log
              by the rules   in the log
  process     0              0
  kind        2 value        2 value
  own steps   20             20
  helps       {helps}
  value       {value}
  serial      2              2
  root block  2              2
  the first byte that differs is byte {byte} in the log
  the operation ended with record 92, byte 728: step 0 (00 00 00 00 00 00 00 00), "
    )
}

/// This is told of the log, with the file of the steps, and no other difference.
fn assert_differs(log: &str, told: &str) {
    let lengths = "the log has 6 answers, the rules give 6 answers";
    let said = otq(&with_numbers("check", &[STEPS, log]));
    let expected = format!("{told}{STEPS}\n{lengths}; --all tells every difference\n");
    assert_eq!(
        (said.status, said.out, said.err.as_str()),
        (1, expected, "")
    );
    let said = otq(&["check", TEXT, log, "--all"]);
    let expected = format!("{told}{TEXT}:16\n1 difference; {lengths}\n");
    assert_eq!((said.status, said.out), (1, expected));
}

#[test]
fn a_wrong_answer() {
    let value = "30             40             <";
    let byte = "52 of the log: 1e by the rules, 28";
    assert_differs(WRONG, &difference("1              1", value, byte));
}

/// A log that differs in byte 3 of an answer alone.
#[test]
fn a_wrong_help() {
    let helps = "1              0              <";
    let byte = "51 of the log: 01 by the rules, 00";
    assert_differs(NO_HELPS, &difference(helps, "30             30", byte));
}

#[test]
fn json_of_wrong_answers() {
    let side = |helps: u8, value: u8| {
        format!(
            r#"{{"process": 0, "kind": "value", "own_steps": 20, "helps": {helps}, "value": {value}, "serial": 2, "root_block": 2}}"#
        )
    };
    for (log, byte, in_log) in [(WRONG, 52, side(1, 40)), (NO_HELPS, 51, side(0, 30))] {
        let said = otq(&["check", TEXT, log, "--json"]);
        let by_rules = side(1, 30);
        let expected = format!(
            r#"{{"verdict": "differs", "refusal": null, "answers_in_log": 6, "differences": [{{"index": 3, "byte": {byte}, "record": 92, "line": 16, "by_rules": {by_rules}, "in_log": {in_log}}}], "count": null}}"#
        );
        assert_eq!((said.status, said.out), (1, format!("{expected}\n")));
        let all = otq(&["check", TEXT, log, "--json", "--all"]);
        assert_eq!(all.out, format!("{expected}\n").replace("null}\n", "1}\n"));
    }
}

/// Each byte of each answer counts, that of the steps and that of the helps too.
#[test]
fn every_byte_counts() {
    let log = content(LOG);
    for byte in 0..log.len() {
        let mut wrong = log.clone();
        wrong[byte] ^= 1;
        let said = checked("one-byte-wrong.log", &wrong, &["--all"]);
        let first = format!("\n  the first byte that differs is byte {byte} of the log: ");
        assert_eq!(said.status, 1, "{byte}");
        assert!(
            said.out.contains(&first) && said.out.matches('<').count() == 1,
            "{said:?}"
        );
    }
}

/// The record that ended each operation, found for every answer of the log.
#[test]
fn every_answer_wrong() {
    let log: Vec<u8> = content(LOG).iter().map(|byte| byte ^ 0x80).collect();
    let said = checked("all-wrong.log", &log, &["--all"]);
    assert_eq!(said.status, 1);
    let ended: Vec<&str> = said
        .out
        .lines()
        .filter_map(|line| line.strip_prefix("  the operation ended with record "))
        .filter_map(|line| line.split(',').next())
        .collect();
    assert_eq!(ended, ["25", "56", "74", "92", "107", "124"]);
    // Of the bytes of an answer that differ the first is told.
    let first: Vec<&str> = said
        .out
        .lines()
        .filter_map(|line| line.strip_prefix("  the first byte that differs is byte "))
        .filter_map(|line| line.split(' ').next())
        .collect();
    assert_eq!(first, ["0", "16", "32", "48", "64", "80"]);
    assert!(said
        .out
        .ends_with("\n6 differences; the log has 6 answers, the rules give 6 answers\n"));
    let json = checked("all-wrong-json.log", &log, &["--all", "--json"]);
    assert_eq!(json.out.matches("\"index\"").count(), 6);
    assert!(json.out.ends_with("}], \"count\": 6}\n"), "{json:?}");
    // A kind that there is none of is shown as its number.
    assert!(
        json.out
            .contains(r#""in_log": {"process": 128, "kind": 129, "#),
        "{json:?}"
    );
}

#[test]
fn shorter_and_longer_logs() {
    let log = content(LOG);
    let shorter = checked("shorter.log", &log[..80], &["--all"]);
    assert_eq!(shorter.status, 1);
    assert!(shorter
        .out
        .starts_with("differs at answer 6, byte 80 of the log\n"));
    assert!(shorter
        .out
        .contains("\n  own steps   17             -              <\n"));
    assert!(shorter
        .out
        .contains("\n  the log ends at byte 80, before this answer\n"));
    assert!(shorter
        .out
        .contains("\n  the operation ended with record 124, byte 984: step 0 "));
    assert!(shorter
        .out
        .ends_with("\n1 difference; the log has 5 answers, the rules give 6 answers\n"));
    let longer = checked("longer.log", &[&log[..], &log[..32]].concat(), &["--all"]);
    assert_eq!(longer.status, 1);
    assert!(longer
        .out
        .starts_with("differs at answer 7, byte 96 of the log\n"));
    assert!(longer
        .out
        .contains("\n  own steps   -              17             <\n"));
    let none = "\n  the rules give no answer more; in the log one stands at byte 112\n  \
                the list has no operation that ends here\n";
    assert!(longer.out.contains(none));
    assert!(longer
        .out
        .ends_with("\n2 differences; the log has 8 answers, the rules give 6 answers\n"));
    let empty = checked("empty.log", &[], &[]);
    assert_eq!(empty.status, 1);
    assert!(empty
        .out
        .starts_with("differs at answer 1, byte 0 of the log\n"));
}

#[test]
fn torn_logs() {
    let log = content(LOG);
    let name = path("torn.log");
    for (length, cause) in [
        (
            83,
            format!("5 whole answers, then 3 bytes at byte 80 of {name}; --whole checks the 5"),
        ),
        (
            3,
            format!("0 whole answers, then 3 bytes at byte 0 of {name}"),
        ),
    ] {
        let torn = checked("torn.log", &log[..length], &[]);
        let told = format!(
            "otq: refused with 11: the log bytes are not a multiple of 16\n  \
             likely cause: {cause}\n  `otq explain 11` says what to do\n"
        );
        assert_eq!((torn.status, torn.out.as_str()), (3, ""));
        assert_eq!(torn.err, told);
    }
    let whole = checked("torn-whole.log", &log[..83], &["--whole"]);
    assert_eq!(whole.status, 1);
    assert!(
        whole
            .err
            .contains("left out the last 3 bytes, from byte 80 on"),
        "{whole:?}"
    );
    assert!(whole.out.starts_with("differs at answer 6, "), "{whole:?}");
    let json = checked("torn-json.log", &log[..83], &["--json"]);
    assert!(json
        .out
        .starts_with(r#"{"verdict": "refused", "refusal": {"number": 11, "#));
    assert!(
        json.out
            .ends_with("\"differences\": [], \"count\": null}\n"),
        "{json:?}"
    );
}

#[test]
fn refused_lists() {
    let torn = otq(&with_numbers("check", &[TORN, LOG]));
    assert_eq!((torn.status, torn.out.as_str()), (3, ""));
    assert!(torn.err.starts_with("otq: refused with 4: "), "{torn:?}");
    let whole = otq(&with_numbers("check", &[TORN, LOG, "--whole"]));
    assert!(
        whole
            .out
            .starts_with("differs at answer 3, byte 32 of the log\n"),
        "{whole:?}"
    );
    let wrong_p = otq(&["check", "-p", "4", "-L", "3", STEPS, LOG]);
    assert_eq!(wrong_p.status, 3);
    let place = format!("\n  record 26, byte 200: take by 0 (00 02 00 00 00 00 00 00), {STEPS}\n");
    assert!(wrong_p.err.contains(&place), "{wrong_p:?}");
    assert!(
        wrong_p
            .err
            .contains("likely cause: with -p 2 the whole list"),
        "{wrong_p:?}"
    );
}

#[test]
fn a_text_in_the_place_of_the_log() {
    let said = otq(&["check", TEXT, TEXT]);
    let message = format!("otq: {TEXT}: it holds text, and not answer records\n");
    assert_eq!((said.status, said.err), (2, message));
}
