//! The plain queue's three rules.

use reference::plain_queue::PlainQueue;
use reference::records::{Operation, Outcome};

#[test]
fn first_in_first_out() {
    let mut queue = PlainQueue::default();
    assert_eq!(queue.feed(Operation::Take), Outcome::Nothing);
    assert_eq!(queue.feed(Operation::Put(4)), Outcome::PutDone);
    assert_eq!(queue.feed(Operation::Put(3)), Outcome::PutDone);
    assert_eq!(queue.values(), [4, 3]);
    assert_eq!(queue.feed(Operation::Take), Outcome::Value(4));
    assert_eq!(queue.feed(Operation::Take), Outcome::Value(3));
    assert_eq!(queue.feed(Operation::Take), Outcome::Nothing);
    assert_eq!(queue.values(), []);
}
