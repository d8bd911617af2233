//! Logs that are equal, changed, shorter, longer and torn.

use crate::support::{mixed_list, needed};
use compare::calls::Input;
use otq::most_answer_bytes;
use reference::known_runs::m6;

/// Whole and half lists with their own logs, and what is to be done with them.
fn with_logs(compare: impl Fn(Input, usize, &[u8])) {
    for (p, l, seed) in [(2, 1, 1), (2, 4, 2), (4, 2, 3), (8, 1, 4)] {
        let whole = mixed_list(p, l, seed);
        let half = whole.len() / 16 * 8;
        for records in [&whole[..], &whole[..half]] {
            let input = Input { p, l, records };
            let words = needed(p, l);
            let (_, log) = input.run(words, most_answer_bytes(p, l).unwrap());
            compare(input, words, &log);
        }
    }
}

#[test]
fn equal_logs() {
    with_logs(|input, words, log| {
        assert_eq!(input.check_log(words, log).verdict, 0);
    });
}

#[test]
fn each_changed_byte() {
    with_logs(|input, words, log| {
        for byte in 0..log.len() {
            for change in [1, 128, 255] {
                let mut log = log.to_vec();
                log[byte] ^= change;
                let checked = input.check_log(words, &log);
                assert_eq!((checked.verdict, checked.index), (1, byte as u64 / 16));
            }
        }
    });
}

/// M6: byte 2 has 20 and then 15 steps, byte 3 has 1 help and then none.
#[test]
fn steps_alone_and_helps_alone() {
    let (p, l, records) = (2, 1, &m6(0, 1).bytes()[..]);
    let input = Input { p, l, records };
    let (_, log) = input.run(needed(p, l), most_answer_bytes(p, l).unwrap());
    assert_eq!([&log[2..4], &log[18..20]], [[20, 1], [15, 0]]);
    for byte in [2, 3, 18, 19] {
        let mut log = log.clone();
        log[byte] ^= 1;
        let checked = input.check_log(needed(p, l), &log);
        assert_eq!((checked.verdict, checked.index), (1, byte as u64 / 16));
    }
}

#[test]
fn each_shorter_log() {
    with_logs(|input, words, log| {
        for length in 0..log.len() {
            input.check_log(words, &log[..length]);
        }
    });
}

#[test]
fn longer_logs() {
    with_logs(|input, words, log| {
        for more in 1..=33 {
            let longer = [log, &vec![0; more]].concat();
            input.check_log(words, &longer);
        }
        input.check_log(words, &log.repeat(3));
    });
}

#[test]
fn answers_exchanged() {
    with_logs(|input, words, log| {
        let mut records: Vec<&[u8]> = log.chunks(16).collect();
        for first in 1..records.len() {
            records.swap(first - 1, first);
            input.check_log(words, &records.concat());
        }
    });
}
