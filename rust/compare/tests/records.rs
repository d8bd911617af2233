//! Every record that can be wrong, at every place of a list.

use crate::support::{compare_amply, mixed_list, needed, with_a_record_more};
use otq::{Refusal, Verdict};
use reference::lists::List;

fn compare_each(p: u32, l: u32) {
    let list = mixed_list(p, l, 3);
    for longer in with_a_record_more(p, &list) {
        compare_amply(p, l, &longer);
    }
}

#[test]
fn two_processes() {
    compare_each(2, 1);
    compare_each(2, 2);
}

#[test]
fn four_processes() {
    compare_each(4, 1);
}

#[test]
fn eight_processes() {
    compare_each(8, 1);
}

/// A begin inside the last of L operations is refused with 8 by each call; inside one before it, with
/// 6.
#[test]
fn begins_inside_the_last_operation() {
    for (l, begun, number) in [
        (1, 1, 8),
        (2, 1, 6),
        (2, 2, 8),
        (500, 499, 6),
        (500, 500, 8),
    ] {
        let ended = List::new().whole_puts(0, begun - 1, 17);
        for steps in [0, 16] {
            let inside = ended.clone().put(0, 7).steps(0, steps);
            for list in [inside.clone().put(0, 8), inside.take(0)] {
                let list = list.bytes();
                compare_amply(2, l, &list);
                assert_eq!(
                    refused_by_each(2, l, &list),
                    [number; 3],
                    "L {l}, begun {begun}"
                );
            }
        }
    }
}

/// The numbers of the library's calls: Run, list the order and check a log.
fn refused_by_each(p: u32, l: u32, records: &[u8]) -> [u32; 3] {
    let number = |refusal: Option<Refusal>| refusal.map_or(0, Refusal::number);
    let mut table = vec![0; needed(p, l)];
    let checked = otq::check_log(p, l, records, &[], &mut table);
    let Verdict::Refused(by_check) = checked else {
        panic!("not refused: {checked:?}");
    };
    let listed = otq::list_order(p, l, records, &mut table, &mut []);
    let ran = otq::play(p, l, records).run;
    [ran.refusal, listed.err(), Some(by_check)].map(number)
}

/// Where all have begun L and are idle, each begin is past L.
#[test]
fn begins_past_l_of_every_process() {
    for (p, l) in [(2, 1), (2, 500), (4, 24), (8, 3)] {
        let list = mixed_list(p, l, 4);
        for process in 0..p as u8 {
            for kind in [1, 2] {
                let begin = [process, kind, 0, 0, 0, 0, 0, 0];
                compare_amply(p, l, &[&list[..], &begin].concat());
            }
        }
    }
}
