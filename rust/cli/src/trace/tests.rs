//! A disagreement is found, whichever side it is on.

use super::{compare, Traced};
use crate::list::List;
use reference::records::Answer;

fn list(text: &str) -> List {
    List::of_text(text)
}

const TEXT: &str = "processes 2\nput 7 by 0\nstep 0 x17\n";

#[test]
fn both_agree() {
    assert_eq!(compare(&list(TEXT), 1, 18), Ok(1));
}

#[test]
fn another_table() {
    let list = list(TEXT);
    let mut traced = Traced::start(&list).unwrap();
    (0..5).for_each(|_| drop(traced.next().unwrap()));
    assert_eq!(traced.compare(), Ok(()));
    traced.machine.memory.set_super(1, 0, 9);
    let failure = traced.compare().unwrap_err();
    assert!(failure.message.contains("at record 5"), "{failure:?}");
    assert!(
        failure.message.ends_with("disagree on the table"),
        "{failure:?}"
    );
}

#[test]
fn other_answers() {
    let list = list(TEXT);
    let mut traced = Traced::start(&list).unwrap();
    (0..18).for_each(|_| drop(traced.next().unwrap()));
    assert_eq!(traced.compare(), Ok(()));
    let right = traced.answers[0];
    let (steps, helps) = (right.steps + 1, right.helps + 1);
    for wrong in [Answer { steps, ..right }, Answer { helps, ..right }] {
        traced.answers[0] = wrong;
        let failure = traced.compare().unwrap_err();
        assert!(
            failure.message.ends_with("disagree on the answers"),
            "{failure:?}"
        );
    }
}

#[test]
fn a_record_that_one_refuses() {
    let list = list("processes 2\nstep 0\n");
    let mut traced = Traced::start(&list).unwrap();
    let failure = traced.next().unwrap_err();
    assert!(failure.message.contains("at record 1"), "{failure:?}");
    traced.played = 1;
    let failure = traced.compare().unwrap_err();
    assert!(
        failure.message.ends_with("the records taken"),
        "{failure:?}"
    );
}
