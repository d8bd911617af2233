//! List the order: its records, its output lengths and its table.

use crate::support::{
    list_with, mixed_list, needed, order_of, pattern_bytes, run_amply, then_pattern_bytes, SPARE,
};
use reference::list::ListResult;
use reference::lists::List;

fn listed(refusal: u32, length: usize) -> ListResult {
    let length = length as u64;
    ListResult { refusal, length }
}

#[test]
fn puts_come_before_takes_in_a_block() {
    // As M3, with the take by the left process.
    let list = List::new()
        .take(0)
        .put(1, 5)
        .steps(0, 4)
        .steps(1, 4)
        .steps(1, 13);
    let order = order_of(2, 24, &list.bytes());
    let put = [1, 1, 1, 0, 1, 0, 0, 0];
    let take = [0, 2, 1, 0, 1, 0, 0, 0];
    assert_eq!(order, [put, take].concat());
}

#[test]
fn place_order_below_comes_before_process_order() {
    // M5's two puts.
    let list = List::new()
        .put(1, 10)
        .steps(1, 18)
        .put(0, 20)
        .steps(0, 31)
        .bytes();
    let order = order_of(4, 24, &list);
    assert_eq!(
        order,
        [[1, 1, 1, 0, 1, 0, 0, 0], [0, 1, 1, 0, 1, 0, 0, 0]].concat()
    );
}

#[test]
fn unfinished_operations_are_listed_from_c4_on() {
    // A put of p = 2 writes its root block at its 15th step, C4.
    for steps in 0..=17 {
        let list = List::new().put(1, 3).steps(1, steps).bytes();
        let expected = if steps < 15 {
            vec![]
        } else {
            vec![1, 1, 1, 0, 1, 0, 0, 0]
        };
        assert_eq!(order_of(2, 1, &list), expected, "steps {steps}");
    }
}

#[test]
fn a_put_of_0_is_a_put() {
    let list = List::new()
        .put(0, 0)
        .steps(0, 17)
        .take(0)
        .steps(0, 17)
        .bytes();
    let expected = [[0, 1, 1, 0, 1, 0, 0, 0], [0, 2, 2, 0, 2, 0, 0, 0]].concat();
    assert_eq!(order_of(2, 2, &list), expected);
}

#[test]
fn serials_above_a_byte() {
    let mut list = List::new();
    for _ in 0..300 {
        list = list.take(1).steps(1, 17);
    }
    let order = order_of(2, 300, &list.bytes());
    assert_eq!(order.len(), 2400);
    assert_eq!(order[8 * 299..], [1, 2, 44, 1, 44, 1, 0, 0]);
}

#[test]
fn every_output_length() {
    for (p, l, seed) in [(2, 1, 1), (2, 4, 2), (4, 2, 3), (8, 2, 4)] {
        let list = mixed_list(p, l, seed);
        let order = order_of(p, l, &list);
        assert_eq!(order.len(), 8 * (p * l) as usize);
        let words = needed(p, l) + SPARE;
        let table = run_amply(p, l, &list).table;
        for length in 0..=order.len() + SPARE {
            let after = list_with(p, l, &list, words, length);
            let (result, bytes) = if length < order.len() {
                (listed(10, 0), pattern_bytes(length))
            } else {
                (listed(0, order.len()), then_pattern_bytes(&order, length))
            };
            assert_eq!(
                (after.result, after.bytes),
                (result, bytes),
                "length {length}"
            );
            assert_eq!(after.table, table);
        }
    }
}

#[test]
fn the_empty_list_needs_no_output() {
    for list in [vec![], List::new().put(0, 1).steps(0, 9).bytes()] {
        assert_eq!(list_with(2, 1, &list, 49, 0).result, listed(0, 0));
    }
}

#[test]
fn a_record_refusal_comes_before_10() {
    let list = List::new().put(0, 1).steps(0, 18).bytes();
    assert_eq!(list_with(2, 1, &list, 49, 0).result, listed(7, 0));
    let whole = &list[..8 * 18];
    assert_eq!(list_with(2, 1, whole, 49, 0).result, listed(10, 0));
}
