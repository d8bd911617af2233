//! The checker of growth can fail: each change of the past is named rightly.

use crate::support::{block_words, one_by_one, order_of, past, run_amply};
use reference::growth::{grows, Departure, Past};
use reference::order::Standing;
use reference::records::Kind;
use reference::tree::{Shape, BLOCK_WORDS, ROOT};

const P: u32 = 2;
const L: u32 = 4;

/// The past of so many operations, 18 records each.
fn past_of(operations: usize) -> Past {
    past(P, L, &one_by_one()[..8 * 18 * operations])
}

/// The past of all four, changed, as what follows that of the first three.
fn after_three(change: impl FnOnce(&mut Past)) -> Result<(), Departure> {
    let mut later = past_of(4);
    change(&mut later);
    grows(&past_of(3), &later)
}

fn order_from(entry: usize) -> Result<(), Departure> {
    Err(Departure::Order { entry })
}

fn output_from(byte: usize) -> Result<(), Departure> {
    Err(Departure::Output { byte })
}

#[test]
fn each_past_is_the_beginning_of_those_from_it_on() {
    for earlier in 0..=4 {
        assert_eq!(past_of(earlier).order.len(), earlier);
        for later in 0..=4 {
            let grown = grows(&past_of(earlier), &past_of(later));
            let expected = if later < earlier {
                order_from(later)
            } else {
                Ok(())
            };
            assert_eq!(grown, expected, "{earlier} {later}");
        }
    }
}

#[test]
fn two_entries_exchanged() {
    for first in 0..3 {
        for other in first + 1..4 {
            let exchanged = after_three(|past| past.order.swap(first, other));
            assert_eq!(exchanged, order_from(first), "{first} {other}");
        }
    }
}

#[test]
fn an_entry_dropped_or_added() {
    for entry in 0..3 {
        let dropped = after_three(|past| {
            past.order.remove(entry);
        });
        assert_eq!(dropped, order_from(entry));
        let twice = after_three(|past| past.order.insert(entry, past.order[entry + 1]));
        assert_eq!(twice, order_from(entry));
    }
    // The fourth is not of the past.
    assert_eq!(after_three(|past| past.order.truncate(3)), Ok(()));
}

/// Another kind, process, serial and root block.
const CHANGES: [fn(&mut Standing); 4] = [
    |entry| {
        entry.kind = match entry.kind {
            Kind::Put => Kind::Take,
            Kind::Take => Kind::Put,
        }
    },
    |entry| entry.given.process ^= 1,
    |entry| entry.given.place ^= 1,
    |entry| entry.root_block += 1,
];

#[test]
fn each_part_of_an_entry_changed() {
    for change in CHANGES {
        for entry in 0..3 {
            let changed = after_three(|past| change(&mut past.order[entry]));
            assert_eq!(changed, order_from(entry));
        }
        assert_eq!(after_three(|past| change(&mut past.order[3])), Ok(()));
    }
}

#[test]
fn each_output_byte_changed() {
    for byte in 0..32 {
        let changed = after_three(|past| past.output[byte] ^= 128);
        let expected = if byte < 24 { output_from(byte) } else { Ok(()) };
        assert_eq!(changed, expected);
    }
}

#[test]
fn output_bytes_exchanged_and_cut() {
    // The processes of the first two records, and the kinds of the next two.
    assert_eq!(after_three(|past| past.output.swap(0, 8)), output_from(0));
    assert_eq!(after_three(|past| past.output.swap(9, 17)), output_from(9));
    let turned = after_three(|past| past.output.rotate_left(8));
    assert_eq!(turned, output_from(0));
    for length in 0..24 {
        let cut = after_three(|past| past.output.truncate(length));
        assert_eq!(cut, output_from(length));
    }
    assert_eq!(after_three(|past| past.output.truncate(24)), Ok(()));
}

/// The past of all four with other words in one block, after that of the first three.
fn with_words(node: u32, place: u32, start: usize, words: &[u32]) -> Result<(), Departure> {
    let shape = Shape::new(P, L).unwrap();
    let mut table = run_amply(P, L, &one_by_one()).table;
    block_words(shape, &mut table, node, place)[start..start + words.len()].copy_from_slice(words);
    let later = Past::left(shape, &table, &order_of(P, L, &one_by_one()));
    grows(&past_of(3), &later)
}

#[test]
fn a_past_rewritten_in_the_table() {
    // The first two operations turned round, both in block 1, and both in block 2.
    assert_eq!(with_words(ROOT, 1, 3, &[0, 1]), order_from(0));
    assert_eq!(with_words(ROOT, 1, 3, &[1, 1]), order_from(1));
    assert_eq!(with_words(ROOT, 1, 0, &[0; BLOCK_WORDS]), order_from(0));
    // The third in block 4, and a take in the place of the second.
    assert_eq!(with_words(ROOT, 3, 3, &[1, 1]), order_from(2));
    assert_eq!(with_words(3, 1, 0, &[0, 1]), order_from(1));
    // The fourth in block 3, made a put, and dropped: it is not of the past.
    assert_eq!(with_words(ROOT, 3, 3, &[2, 2]), Ok(()));
    assert_eq!(with_words(3, 2, 0, &[2, 0]), Ok(()));
    assert_eq!(with_words(ROOT, 4, 0, &[0; BLOCK_WORDS]), Ok(()));
}
