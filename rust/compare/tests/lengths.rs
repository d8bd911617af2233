//! Buffers of every length around each edge, and lists torn at every byte.

use crate::support::{mixed_list, needed};
use compare::calls::Input;
use otq::{most_answer_bytes, most_order_bytes};

const SMALL: [(u32, u32); 5] = [(2, 1), (2, 3), (4, 1), (4, 2), (8, 1)];

/// The list with its own log, and what is to be done with them.
fn with_log(p: u32, l: u32, compare: impl Fn(Input, &[u8])) {
    let records = mixed_list(p, l, 1);
    let records = &records[..];
    let input = Input { p, l, records };
    let (_, log) = input.run(needed(p, l), most_answer_bytes(p, l).unwrap());
    compare(input, &log);
}

fn compare_table(input: Input, log: &[u8], words: usize) {
    input.run(words, log.len());
    input.list_order(words, log.len());
    input.check_log(words, log);
}

#[test]
fn every_table_length() {
    for (p, l) in SMALL {
        with_log(p, l, |input, log| {
            (0..needed(p, l) + 20).for_each(|words| compare_table(input, log, words));
        });
    }
}

#[test]
fn table_lengths_at_the_edge_of_large_trees() {
    for (p, l) in [(2, 500), (4, 24), (4, 500), (8, 30)] {
        with_log(p, l, |input, log| {
            let edge = needed(p, l) - 2..=needed(p, l) + 2;
            edge.for_each(|words| compare_table(input, log, words));
        });
    }
}

#[test]
fn every_answer_length() {
    for (p, l) in SMALL {
        with_log(p, l, |input, log| {
            for bytes in 0..log.len() + 20 {
                input.run(needed(p, l), bytes);
            }
        });
    }
}

#[test]
fn every_output_length() {
    for (p, l) in SMALL {
        with_log(p, l, |input, _| {
            for bytes in 0..most_order_bytes(p, l).unwrap() + 12 {
                input.list_order(needed(p, l), bytes);
            }
        });
    }
}

/// Each start of a list, so that operations are cut off at each of their steps.
#[test]
fn lists_torn_at_every_byte() {
    for (p, l) in SMALL {
        with_log(p, l, |input, log| {
            for length in 0..=input.records.len() {
                let records = &input.records[..length];
                compare_table(Input { records, ..input }, log, needed(p, l));
            }
        });
    }
}

#[test]
fn records_and_log_at_any_address() {
    with_log(4, 2, |input, log| {
        for offset in 0..16 {
            let moved = |bytes: &[u8]| [&vec![7; offset], bytes].concat();
            let (records, log) = (moved(input.records), moved(log));
            let records = &records[offset..];
            compare_table(Input { records, ..input }, &log[offset..], needed(4, 2));
        }
    });
}
