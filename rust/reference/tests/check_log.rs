//! Check a log: equal logs, each changed byte, records lacking or too many, refusals.

use crate::support::{check_with, mixed_list, needed, pattern_bytes, run_amply, written, SPARE};
use reference::check::CheckResult;
use reference::known_runs::m6;
use reference::lists::List;

const SAME: CheckResult = CheckResult {
    refusal: 0,
    verdict: 0,
    index: 0,
};

fn differs(index: usize) -> CheckResult {
    CheckResult {
        refusal: 0,
        verdict: 1,
        index: index as u64,
    }
}

/// Lists with their p, L and own logs, all finished and cut.
fn lists() -> Vec<(u32, u32, Vec<u8>, Vec<u8>)> {
    let mut lists = Vec::new();
    for (p, l, seed) in [(2, 1, 1), (2, 4, 2), (4, 2, 3), (8, 1, 4)] {
        let whole = mixed_list(p, l, seed);
        let half = whole[..whole.len() / 16 * 8].to_vec();
        for list in [whole, half] {
            let log = written(&run_amply(p, l, &list)).to_vec();
            lists.push((p, l, list, log));
        }
    }
    lists
}

/// The verdict, and the table as Run leaves it.
fn assert_check(p: u32, l: u32, list: &[u8], log: &[u8], expected: CheckResult) {
    let after = check_with(p, l, list, log, needed(p, l) + SPARE);
    assert_eq!(after.result, expected, "p {p} l {l} log {}", log.len());
    assert_eq!(after.table, run_amply(p, l, list).table);
}

#[test]
fn the_own_log_is_the_same() {
    for (p, l, list, log) in lists() {
        assert_check(p, l, &list, &log, SAME);
    }
}

#[test]
fn a_changed_byte_is_found_at_its_record() {
    for (p, l, list, log) in lists() {
        for byte in 0..log.len() {
            for change in [1, 128, 255] {
                let mut log = log.clone();
                log[byte] ^= change;
                assert_check(p, l, &list, &log, differs(byte / 16));
            }
        }
    }
}

/// M6: its log begins with 20 steps and 1 help, then come 15 and 0.
#[test]
fn steps_alone_and_helps_alone() {
    let list = m6(0, 1).bytes();
    let log = written(&run_amply(2, 1, &list)).to_vec();
    for (record, counts) in [[20, 1], [15, 0]].into_iter().enumerate() {
        assert_eq!(log[16 * record + 2..16 * record + 4], counts);
        let [steps, helps] = counts;
        let off = [steps + 1, helps];
        for changed in [off, [steps - 1, helps], [steps, helps ^ 1], [helps, steps]] {
            let mut log = log.clone();
            log[16 * record + 2..16 * record + 4].copy_from_slice(&changed);
            assert_check(2, 1, &list, &log, differs(record));
        }
    }
}

#[test]
fn the_first_of_several_changes_counts() {
    let (p, l, list, mut log) = lists().swap_remove(2);
    assert!(log.len() >= 64);
    for record in [3, 2, 1, 0] {
        log[16 * record + 4] ^= 1;
        assert_check(p, l, &list, &log, differs(record));
    }
}

#[test]
fn records_lacking_in_one_log() {
    for (p, l, list, log) in lists() {
        for whole in 0..log.len() / 16 {
            assert_check(p, l, &list, &log[..16 * whole], differs(whole));
        }
        let more = [&log[..], &[0; 16]].concat();
        assert_check(p, l, &list, &more, differs(log.len() / 16));
        let many = [&log[..], &log[..], &[7; 64]].concat();
        assert_check(p, l, &list, &many, differs(log.len() / 16));
    }
}

#[test]
fn an_empty_log_of_an_unfinished_list_is_the_same() {
    let list = List::new().put(0, 1).steps(0, 16).bytes();
    assert_check(2, 1, &list, &[], SAME);
    assert_check(2, 1, &list, &[0; 16], differs(0));
    assert_check(2, 1, &[], &[], SAME);
}

#[test]
fn no_answer_room_is_asked_for() {
    // More answers than any fixed log buffer of the other tests.
    let list = mixed_list(8, 60, 9);
    let log = written(&run_amply(8, 60, &list)).to_vec();
    assert_eq!(log.len(), 16 * 480);
    assert_check(8, 60, &list, &log, SAME);
    assert_check(8, 60, &list, &pattern_bytes(16), differs(0));
}
