//! `otq order`.

use crate::support::{assert_fails, file, otq, path, with_numbers, written, STEPS, TEXT, TORN};
use std::fs;

const ORDER: &str = "put 0 1 1\nput 1 1 2\ntake 0 2 2\ntake 1 2 3\ntake 1 3 4\nput 0 3 5\n";

#[test]
fn text_and_records() {
    assert_eq!(written(&["order", TEXT]), ORDER);
    assert_eq!(written(&with_numbers("order", &[STEPS])), ORDER);
    let empty = file("listing.empty", b"");
    assert_eq!(written(&["order", &empty]), "");
}

#[test]
fn raw_records() {
    let raw = path("order.bin");
    assert_eq!(written(&["order", TEXT, "--raw", &raw]), ORDER);
    let bytes = fs::read(&raw).unwrap();
    assert_eq!(bytes.len(), 8 * 6);
    assert_eq!(bytes[8..16], [1, 1, 1, 0, 2, 0, 0, 0]);
}

#[test]
fn refused_lists() {
    let raw = path("refused-order.bin");
    let words = with_numbers("order", &[TORN, "--raw", &raw]);
    assert_fails(&words, 3, "otq: refused with 4: ");
    assert!(fs::metadata(&raw).is_err());
    let said = otq(&["order", "-p", "4", "-L", "3", STEPS]);
    assert_eq!((said.status, said.out.as_str()), (3, ""));
    assert!(
        said.err.contains("\n  record 26, byte 200: take by 0 "),
        "{said:?}"
    );
    let whole = otq(&with_numbers("order", &[TORN, "--whole"]));
    assert_eq!(
        (whole.status, whole.out.as_str()),
        (0, "put 0 1 1\nput 1 1 2\ntake 0 2 2\n")
    );
}

/// List the order has no answer bytes, so that a heading that lends few does not stop it.
#[test]
fn answer_bytes_play_no_part() {
    let text = "processes 2\noperations 1\nanswers 0\nput 1 by 0\nstep 0 x17\nput 1 by 0\n";
    let list = file("no-answers.txt", text.as_bytes());
    let said = otq(&["order", &list]);
    assert!(said.err.starts_with("otq: refused with 8: "), "{said:?}");
    assert!(said.err.contains("\n  record 19, byte 144: "), "{said:?}");
    assert_eq!(written(&["order", "examples/known/M10.txt"]), "put 0 1 1\n");
    assert_fails(
        &["order", "examples/known/M11.txt"],
        3,
        "otq: refused with 3: ",
    );
}

#[test]
fn json() {
    let first = r#"{"process": 0, "kind": "put", "serial": 1, "root_block": 1}"#;
    let m10 = written(&["order", "--json", "examples/known/M10.txt"]);
    assert_eq!(
        m10,
        format!("{{\"refusal\": null, \"order\": [{first}]}}\n")
    );
    let refused = otq(&with_numbers("order", &[TORN, "--json"]));
    assert_eq!(refused.status, 3);
    assert!(
        refused.out.starts_with(r#"{"refusal": {"number": 4, "#),
        "{refused:?}"
    );
    assert!(refused.out.ends_with("\"order\": []}\n"), "{refused:?}");
}
