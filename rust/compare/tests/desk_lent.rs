//! The desk touches only what it is lent: buffers of every length around each edge, lists torn at every
//! byte, and buffers that end or begin at a closed page.

use crate::pages::{Fenced, Side};
use crate::support::{desk_list, needed};
use compare::calls::Input;
use compare::desk::input;
use dictionary::{most_output_bytes, TERM_BYTES};
use reference::desk;
use reference::desk_calls::DeskCall;

const SMALL: [(u32, u32); 5] = [(2, 1), (2, 3), (4, 1), (4, 2), (8, 1)];

#[test]
fn every_table_length() {
    for (p, l) in SMALL {
        let call = desk_list(p, l, 1);
        for words in 0..needed(p, l) + 20 {
            let refusal = input(&call)
                .deliver(call.licensed, words, 64)
                .result
                .refusal;
            assert_eq!(refusal, if words < needed(p, l) { 3 } else { 0 });
        }
    }
}

#[test]
fn table_lengths_at_the_edge_of_large_trees() {
    for (p, l) in [(2, 500), (4, 24), (4, 500), (8, 30)] {
        let call = desk_list(p, l, 2);
        let most = most_output_bytes(p, l).unwrap();
        for words in needed(p, l) - 2..=needed(p, l) + 2 {
            input(&call).deliver(call.licensed, words, most);
        }
    }
}

/// A byte short is 10, and no byte short is not.
#[test]
fn every_output_length() {
    for (p, l) in [(2, 3), (4, 2), (4, 5), (8, 3)] {
        let call = desk_list(p, l, 3);
        let all = input(&call).deliver(call.licensed, needed(p, l), 4000);
        let needs = TERM_BYTES * all.terms.len();
        assert!(needs > 0, "p {p}, l {l}: no term");
        for bytes in 0..needs + 20 {
            let sent = input(&call).deliver(call.licensed, needed(p, l), bytes);
            let expected = if bytes < needs {
                (10, 0)
            } else {
                (0, all.terms.len())
            };
            let found = (sent.result.refusal, sent.result.count as usize);
            assert_eq!(found, expected, "p {p}, l {l}, {bytes} bytes");
        }
    }
}

/// Each start of a list, so that operations are cut off at each of their steps.
#[test]
fn lists_torn_at_every_byte() {
    for (p, l) in SMALL {
        let call = desk_list(p, l, 4);
        for length in 0..=call.records.len() {
            let records = &call.records[..length];
            let sent = Input { p, l, records }.deliver(call.licensed, needed(p, l), 64);
            assert_eq!(sent.result.refusal, if length % 8 == 0 { 0 } else { 4 });
        }
    }
}

#[test]
fn records_at_any_address() {
    let call = desk_list(4, 2, 5);
    for offset in 0..16 {
        let moved = [&vec![7; offset], &call.records[..]].concat();
        let records = &moved[offset..];
        let input = Input {
            records,
            ..input(&call)
        };
        input.deliver(call.licensed, needed(4, 2), 64);
    }
}

/// The call on buffers beside closed pages leaves what the reference leaves.
fn assert_fenced(call: &DeskCall, words: usize, bytes: usize, side: Side) {
    let DeskCall {
        p,
        l,
        licensed,
        ref records,
    } = *call;
    let (table, output) = (vec![0xa5a5_a5a5; words], vec![0x5a; bytes]);
    let mut fenced_records = Fenced::new(records, side);
    let mut fenced_table = Fenced::new(&table, side);
    let mut fenced_output = Fenced::new(&output, side);
    let found = dictionary::deliver(
        p,
        l,
        licensed,
        fenced_records.lent(),
        fenced_table.lent(),
        fenced_output.lent(),
    );
    let (mut table, mut output) = (table, output);
    let expected = desk::deliver(p, l, licensed, records, &mut table, &mut output);
    let number = found.refusal.map_or(0, dictionary::Refusal::number);
    assert_eq!((number, found.count), (expected.refusal, expected.count));
    assert_eq!(fenced_records.lent(), records);
    assert!(fenced_table.lent() == table && fenced_output.lent() == output);
}

#[test]
fn beside_closed_pages() {
    for (p, l) in [(2, 1), (2, 3), (4, 2), (8, 1), (8, 30)] {
        let whole = desk_list(p, l, 6);
        let needs = TERM_BYTES
            * input(&whole)
                .deliver(whole.licensed, needed(p, l), 4000)
                .terms
                .len();
        let torn = DeskCall {
            records: whole.records[..whole.records.len() - 3].to_vec(),
            ..whole.clone()
        };
        let none = DeskCall {
            records: Vec::new(),
            ..whole.clone()
        };
        for side in [Side::Start, Side::End] {
            for call in [&whole, &torn, &none] {
                for words in [0, needed(p, l) - 1, needed(p, l), needed(p, l) + 1] {
                    for bytes in [0, needs.saturating_sub(1), needs, needs + 1] {
                        assert_fenced(call, words, bytes, side);
                    }
                }
            }
        }
    }
}
