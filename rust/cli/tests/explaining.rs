//! `otq explain`.

use crate::support::{assert_fails, written};

#[test]
fn every_refusal() {
    let all = written(&["explain"]);
    let number = |line: &str| line.split(' ').next()?.parse().ok();
    let numbers: Vec<u32> = all.lines().map_while(number).collect();
    assert!(numbers.into_iter().eq(0..=16), "{all}");
    for number in 1..=16 {
        let one = written(&["explain", &number.to_string()]);
        let (meaning, advice) = one.split_once(".\n").unwrap();
        assert!(meaning.starts_with(&format!("{number} ")), "{one}");
        assert!(all.contains(&format!("\n{meaning}\n")), "{meaning}");
        assert!(advice.len() > 20, "{advice}");
    }
}

#[test]
fn the_order_of_the_tests() {
    let all = written(&["explain"]);
    for order in [
        "Of a begin: 5, 8, 6.",
        "Of a step: 5, 7, of a run then 9.",
        "Of a forecast: 1, 2, 4, and of each record: 5, 12, 8.",
        "Of the desk: 1, 2, 13, 3, 4, of a begin: 5, 8, 6, 14, of a step: 5, 7, at the end: 10, ",
        "Of a price sheet: 2, here that the count of deliveries is over 4,000, 4, 15, 16.\n",
    ] {
        assert!(all.contains(order), "{all}");
    }
    let instead = "A process that has begun L is refused with 8 instead.\n";
    assert!(written(&["explain", "6"]).ends_with(instead));
    let then = "the list then stops with 6 at the same record.\n";
    let eight = written(&["explain", "8"]);
    assert!(eight.contains("8 is tested before 6") && eight.ends_with(then));
}

/// Two numbers mean something else for a price sheet.
#[test]
fn numbers_of_a_price_sheet() {
    for (number, meaning) in [
        ("2", "the count of deliveries is over 4,000"),
        ("4", "the sheet bytes are not a multiple of 8"),
    ] {
        let told = written(&["explain", number]);
        let (_, of_sheet) = told.split_once("\n\nOf a price sheet: ").expect(number);
        let (meant, advice) = of_sheet.split_once(".\n").unwrap();
        assert_eq!(meant, meaning);
        assert!(advice.len() > 20, "{advice}");
    }
    for number in ["1", "3", "15", "16"] {
        let told = written(&["explain", number]);
        assert!(!told.contains("Of a price sheet"), "{told}");
    }
}

#[test]
fn records() {
    let records = written(&["explain", "records"]);
    for line in [
        "step record, 8 bytes",
        "answer record, 16 bytes",
        "order record, 8 bytes",
        "  2           own steps   of the operation, from A to Q",
        "  3           helps       heads of children moved inside refreshes",
        "  1           kind        1 put done, 2 value, 3 none",
        "band of a price sheet, 8 bytes",
        "  0 to 3      last        the number of its last delivery; deliveries count from 1",
        "  4 to 7      price       in cents for a hundred deliveries",
    ] {
        assert!(records.contains(&format!("{line}\n")), "{line}");
    }
    let help = " A help is such a move inside a refresh: ";
    assert!(records.contains(help), "{records}");
}

#[test]
fn unknown_numbers() {
    for word in ["17", "-", "six", "4294967296", ""] {
        let message = format!("otq: expected a number from 0 to 16 or `records`, found `{word}`\n");
        assert_fails(&["explain", word], 2, &message);
    }
    // What the last line of a run says if nothing is refused.
    assert_eq!(written(&["explain", "0"]), "0 nothing is refused\n");
}
