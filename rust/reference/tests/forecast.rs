//! The forecast: its sums, and each number at its edge, with zeros.

use crate::support::needed;
use reference::begin_lists::BeginList;
use reference::forecast::{forecast, ForecastResult};
use reference::hostile::ill_formed;
use reference::lists::List;
use reference::random::Random;

const SHAPES: [(u32, u32); 6] = [(2, 1), (2, 2), (4, 24), (8, 3), (2, 500), (8, 500)];

fn assert_refuses(number: u32, p: u32, l: u32, begins: &[u8]) {
    let zeros = ForecastResult {
        refusal: number,
        words: 0,
        answer_bytes: 0,
        records: 0,
    };
    let told = format!("p {p} l {l} begins {begins:?}");
    assert_eq!(forecast(p, l, begins), zeros, "{told}");
}

fn foreseen(p: u32, l: u32, begins: &[u8]) -> (u64, u64, u64) {
    let told = forecast(p, l, begins);
    assert_eq!(told.refusal, 0, "p {p} l {l} begins {begins:?}");
    (told.words, told.answer_bytes, told.records)
}

fn in_turn(p: u32, each: u32) -> Vec<u8> {
    List::begins_in_turn(p, each).bytes()
}

/// The list with a record put in at a place.
fn with(list: &[u8], place: usize, record: [u8; 8]) -> Vec<u8> {
    let (before, after) = list.split_at(8 * place);
    [before, &record, after].concat()
}

#[test]
fn sums_by_hand() {
    // H is 1, 2, 3: 42, 82 and 122 records an operation.
    assert_eq!(foreseen(2, 1, &in_turn(2, 1)), (49, 32, 84));
    assert_eq!(foreseen(2, 24, &in_turn(2, 3)), (693, 96, 252));
    assert_eq!(foreseen(4, 24, &in_turn(4, 3)), (2065, 192, 984));
    assert_eq!(foreseen(8, 24, &in_turn(8, 1)), (5481, 128, 976));
    assert_eq!(
        foreseen(8, 500, &in_turn(8, 500)),
        (112_105, 64_000, 488_000)
    );
}

#[test]
fn no_begins_need_the_words_alone() {
    for (p, l) in SHAPES {
        assert_eq!(foreseen(p, l, &[]), (needed(p, l) as u64, 0, 0));
    }
}

#[test]
fn what_is_put_plays_no_part() {
    let puts = List::new().put(1, 0).put(0, u32::MAX).put(1, 7).bytes();
    let takes = List::new().take(1).take(0).take(1).bytes();
    assert_eq!(foreseen(2, 2, &puts), foreseen(2, 2, &takes));
}

/// Begins that the tests 4, 5 and 12 find, and none.
const FAULTS: [&[u8]; 5] = [&[], &[1], &[255; 9], &[255; 8], &[0; 8]];

#[test]
fn number_1_before_all_others() {
    for p in [0, 1, 3, 5, 6, 7, 9, 16, 501, 1 << 31, u32::MAX] {
        for l in [0, 1, 24, 501, u32::MAX] {
            for begins in FAULTS {
                assert_refuses(1, p, l, begins);
            }
        }
    }
}

#[test]
fn number_2_before_4_and_later() {
    for p in [2, 4, 8] {
        for l in [0, 501, 1 << 31, u32::MAX] {
            for begins in FAULTS {
                assert_refuses(2, p, l, begins);
            }
            assert_refuses(2, p, l, &in_turn(p, 2));
        }
        for l in [1, 500] {
            foreseen(p, l, &in_turn(p, 1));
        }
    }
}

#[test]
fn number_4_for_each_torn_length_before_any_record() {
    let too_many = in_turn(2, 2);
    let lists = [in_turn(2, 1), too_many, vec![0; 16], vec![255; 16]];
    for list in lists {
        for length in (0..=16).filter(|length| length % 8 != 0) {
            assert_refuses(4, 2, 1, &list[..length]);
            assert_refuses(4, 8, 1, &list[..length]);
        }
    }
}

/// 5 at each place, before 12 and before 8: some are of kind 0, some of a process that has begun L.
#[test]
fn number_5_at_each_place() {
    for (p, l) in [(2, 1), (4, 2), (8, 1)] {
        let list = in_turn(p, l);
        for bad in ill_formed(p) {
            for place in 0..=list.len() / 8 {
                assert_refuses(5, p, l, &with(&list, place, bad));
            }
        }
        foreseen(p, l, &[p as u8 - 1, 1, 0, 0, 1, 2, 3, 255]);
    }
}

/// 12 at each place, of a process that begins none, some or L.
#[test]
fn number_12_at_each_place() {
    for (p, l) in [(2, 1), (4, 2), (8, 1)] {
        let list = in_turn(p, l);
        for process in 0..p as u8 {
            for place in 0..=list.len() / 8 {
                let step = [process, 0, 0, 0, 0, 0, 0, 0];
                assert_refuses(12, p, l, &with(&list, place, step));
            }
        }
    }
}

/// L begins of each process are not refused; one more is, of whichever process and kind.
#[test]
fn number_8_at_the_begin_past_l() {
    for (p, l) in SHAPES {
        let list = in_turn(p, l);
        foreseen(p, l, &list);
        for process in 0..p as u8 {
            for kind in [1, 2] {
                let begin = [process, kind, 0, 0, 0, 0, 0, 0];
                assert_refuses(8, p, l, &[&list[..], &begin].concat());
                assert_refuses(8, p, l, &with(&list, 1, begin));
            }
        }
    }
}

/// Each process is counted by itself, whatever stands between its begins.
#[test]
fn number_8_of_one_process_alone() {
    for (p, l) in SHAPES {
        for process in [0, p - 1] {
            let other = p - 1 - process;
            let own = (1..=l).fold(List::new(), |list, value| {
                let between = if value % 3 == 0 {
                    list.take(other)
                } else {
                    list
                };
                between.put(process, value)
            });
            foreseen(p, l, &own.clone().bytes());
            foreseen(p, l, &own.clone().take(other).bytes());
            assert_refuses(8, p, l, &own.clone().take(process).bytes());
            assert_refuses(8, p, l, &own.take(other).put(process, 1).bytes());
        }
    }
}

/// Of two records that are refused, the earlier gives the number.
#[test]
fn record_by_record() {
    let bad = [
        (5, [2, 1, 0, 0, 0, 0, 0, 0]),
        (5, [0, 0, 0, 0, 1, 0, 0, 0]),
        (12, [0; 8]),
        (12, [1, 0, 0, 0, 0, 0, 0, 0]),
        (8, [0, 1, 0, 0, 7, 0, 0, 0]),
        (8, [0, 2, 0, 0, 0, 0, 0, 0]),
    ];
    let begun = List::new().put(0, 7).bytes();
    for (first, earlier) in bad {
        for (_, later) in bad {
            let list = [&begun, &earlier[..], &later].concat();
            assert_refuses(first, 2, 1, &list);
        }
    }
}

/// Random begins: not refused as long as no process has more than L, and then the sums.
#[test]
fn random_begins() {
    let mut random = Random::new(1);
    for (p, l) in SHAPES {
        for _ in 0..50 {
            let begins = BeginList::proper(&mut random, p, l, 200).begins;
            let count = begins.len() as u64 / 8;
            let each = [42, 82, 122][p.ilog2() as usize - 1];
            let sums = (needed(p, l) as u64, 16 * count, each * count);
            assert_eq!(foreseen(p, l, &begins), sums);
        }
    }
}
