//! The checker of the desk's order: what it finds wrong with terms that are not the desk's.

use reference::desk::{deliver, terms_sent, TERM_BYTES};
use reference::desk_lists::{taken, DeskList};
use reference::desk_order::{takes_received, terms_in_order, Misdelivered, Received};
use reference::tree::Shape;

/// The list about this, and the table and terms that the desk leaves of it.
fn delivered(about: &str) -> (DeskList, Vec<u32>, Vec<u32>) {
    let mut lists = taken().into_iter();
    let list = lists
        .find(|list| list.about == about)
        .expect("a fixed list");
    let shape = Shape::new(list.p, list.l).unwrap();
    let (mut table, mut output) = (vec![9; shape.words_needed()], vec![9; 40]);
    let (p, l, licensed) = (list.p, list.l, list.licensed);
    let left = deliver(p, l, licensed, &list.records, &mut table, &mut output);
    assert_eq!(left.refusal, 0);
    let terms = terms_sent(&output[..TERM_BYTES * left.count as usize]);
    (list, table, terms)
}

fn check(list: &DeskList, table: &[u32], terms: &[u32]) -> Result<(), Misdelivered> {
    let shape = Shape::new(list.p, list.l).unwrap();
    terms_in_order(shape, &list.records, table, terms)
}

/// Of each term the process and serial of its take and the number of its put.
#[test]
fn puts_of_the_terms() {
    for (about, expected) in [
        ("the later take finishes first", vec![(1, 1, 1), (0, 3, 2)]),
        ("a take before its Q, and one after it", vec![(0, 3, 2)]),
        (
            "below the first entry, it, and the last",
            vec![(1, 2, 2), (1, 3, 3)],
        ),
        (
            "takes in the order of places, not of processes",
            vec![(1, 1, 1), (0, 1, 2)],
        ),
        ("a value of another process, and an entry", vec![(1, 2, 2)]),
        ("an entry twice", vec![(1, 1, 1), (1, 2, 2)]),
    ] {
        let (list, table, terms) = delivered(about);
        assert_eq!(check(&list, &table, &terms), Ok(()), "{about}");
        let shape = Shape::new(list.p, list.l).unwrap();
        let received = takes_received(shape, &list.records, &table);
        let terms = received.iter().filter(|x| x.is_term());
        let numbers = |x: &Received| (x.take.name.process, x.take.name.serial, x.number);
        assert_eq!(terms.map(numbers).collect::<Vec<_>>(), expected, "{about}");
    }
}

#[test]
fn terms_exchanged() {
    let (list, table, terms) = delivered("the later take finishes first");
    let exchanged = [terms[1], terms[0]];
    let found = check(&list, &table, &exchanged);
    assert_eq!(found, Err(Misdelivered::NotRising { term: 1 }));
}

#[test]
fn a_term_twice_a_value_and_a_number_that_is_no_put() {
    let (list, table, _) = delivered("below the first entry, it, and the last");
    let last = u32::MAX - (1 << 31);
    for (terms, term) in [
        (vec![0, 0], 1),
        (vec![0, last, last], 2),
        (vec![last, 5], 1),
    ] {
        let found = check(&list, &table, &terms);
        assert_eq!(found, Err(Misdelivered::NotRising { term }), "{terms:?}");
    }
}

#[test]
fn a_term_left_out_and_one_of_an_unfinished_take() {
    let (list, table, terms) = delivered("the later take finishes first");
    for kept in [&terms[..1], &terms[1..]] {
        let found = check(&list, &table, kept);
        let count = Misdelivered::Count {
            received: 2,
            terms: 1,
        };
        assert_eq!(found, Err(count));
    }
    let (list, table, _) = delivered("a take before its Q, and one after it");
    let count = Misdelivered::Count {
        received: 1,
        terms: 2,
    };
    assert_eq!(check(&list, &table, &[3, 4]), Err(count));
    // In the place of the term that was received.
    let other = Misdelivered::Term { term: 0, number: 2 };
    assert_eq!(check(&list, &table, &[3]), Err(other));
}
