//! Refusals 1 to 4 and 11: the first in order is given and nothing is changed.

use crate::support::{
    check_with, list_with, mixed_list, needed, pattern_bytes, pattern_words, run_with,
};
use reference::check::CheckResult;
use reference::list::ListResult;
use reference::run::RunResult;

/// All three calls refuse with the number and leave their buffers as they were.
fn assert_all_refuse(number: u32, p: u32, l: u32, records: &[u8], log: &[u8], words: usize) {
    let told = format!("p {p} l {l} bytes {} words {words}", records.len());
    let ran = run_with(p, l, records, words, 64);
    let zero = RunResult {
        refusal: number,
        taken: 0,
        answers: 0,
    };
    assert_eq!(ran.result, zero, "{told}");
    let listed = list_with(p, l, records, words, 64);
    let none = ListResult {
        refusal: number,
        length: 0,
    };
    assert_eq!(listed.result, none, "{told}");
    for (table, bytes) in [(ran.table, ran.bytes), (listed.table, listed.bytes)] {
        assert_eq!(table, pattern_words(words), "{told}");
        assert_eq!(bytes, pattern_bytes(64), "{told}");
    }
    assert_check_refuses(number, p, l, records, log, words);
}

fn assert_check_refuses(number: u32, p: u32, l: u32, records: &[u8], log: &[u8], words: usize) {
    let checked = check_with(p, l, records, log, words);
    let refused = CheckResult {
        refusal: number,
        verdict: 2,
        index: 0,
    };
    assert_eq!(checked.result, refused, "p {p} l {l} log {}", log.len());
    assert_eq!(checked.table, pattern_words(words));
}

#[test]
fn number_1_before_all_others() {
    for p in [0, 1, 3, 5, 6, 7, 9, 16, 501, 1 << 31, u32::MAX] {
        assert_all_refuse(1, p, 24, &[], &[], 2000);
        assert_all_refuse(1, p, 0, &[1], &[1], 0);
        assert_all_refuse(1, p, u32::MAX, &[9; 8], &[], 1);
    }
}

#[test]
fn number_2_before_3_and_later() {
    for p in [2, 4, 8] {
        for l in [0, 501, 1 << 31, u32::MAX] {
            assert_all_refuse(2, p, l, &[], &[], 2000);
            assert_all_refuse(2, p, l, &[1], &[1], 0);
        }
    }
}

#[test]
fn number_3_at_every_shorter_length() {
    for words in 0..49 {
        assert_all_refuse(3, 2, 1, &[], &[], words);
        assert_all_refuse(3, 2, 1, &[1], &[1], words);
    }
    for (p, l) in [(2, 500), (4, 24), (8, 1), (8, 3), (8, 500)] {
        assert_all_refuse(3, p, l, &[1], &[1], needed(p, l) - 1);
        assert_eq!(run_with(p, l, &[], needed(p, l), 0).result.refusal, 0);
    }
}

#[test]
fn number_4_for_each_torn_length() {
    let list = mixed_list(2, 2, 1);
    for length in 0..=list.len() {
        if length % 8 != 0 {
            assert_all_refuse(4, 2, 2, &list[..length], &[1], needed(2, 2));
        }
    }
    // Torn lists whose whole records would be refused on their own.
    assert_all_refuse(4, 2, 2, &[255; 9], &[], needed(2, 2));
    assert_all_refuse(4, 8, 1, &[255; 7], &[], needed(8, 1) + 5);
}

#[test]
fn number_11_for_each_torn_log_before_any_record() {
    let list = mixed_list(2, 2, 1);
    for torn in 1..=15 {
        for whole in [0, 16, 48] {
            let log = pattern_bytes(whole + torn);
            assert_check_refuses(11, 2, 2, &list, &log, needed(2, 2));
            // Its records would be refused with 5.
            assert_check_refuses(11, 2, 2, &[255; 8], &log, needed(2, 2));
        }
    }
}
