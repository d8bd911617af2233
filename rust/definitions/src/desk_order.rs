//! What the claim of the desk's order computes with, on the root orders of the lists worked by hand: the
//! values put, and the answers of a plain queue that is fed put numbers in the place of values.

use crate::desk::ALSO;
use crate::row::{Row, Statement};
use crate::terms;
use reference::account::{root_operations, Account};
use reference::desk_lists::{taken, DeskList};
use reference::plain_queue::PlainQueue;
use reference::records::Operation;
use reference::run::{play, Room};
use reference::tree::Shape;

/// Puts before the first, and what the queue holds, where the order is not fed to an empty queue.
const BEFORE: u32 = 7;
const HELD: [u32; 2] = [6, 7];

pub fn rows() -> Vec<Row> {
    taken().iter().map(row).collect()
}

fn row(list: &DeskList) -> Row {
    let order = root_order(list);
    let text = terms::list(order.iter().map(|&x| terms::operation(Some(x))));
    let values = terms::numbers(order.iter().filter_map(|&x| value_of(x)));
    let after_some = format!(
        "replies ({}) (with_numbers {BEFORE} order_#)",
        terms::numbers(HELD)
    );
    let theorems = [
        Statement::equal("values", "values_put order_#", &values),
        Statement::equal(
            "first",
            "replies [] (with_numbers 0 order_#)",
            &replies(&order, 0, &[]),
        ),
        Statement::equal("later", &after_some, &replies(&order, BEFORE, &HELD)),
    ];
    let order = Statement::value("order", "List Operation", text);
    let theorems = theorems.map(|theorem| theorem.with(ALSO));
    Row {
        about: format!("put numbers: {}", list.about),
        met: Vec::new(),
        statements: [order].into_iter().chain(theorems).collect(),
    }
}

/// The operations that stand in the root after the list.
fn root_order(list: &DeskList) -> Vec<Operation> {
    let shape = Shape::new(list.p, list.l).expect("a proper shape");
    let account = Account::of(shape, &list.records).expect("a list that is taken whole");
    let played = play(shape, &list.records, Room::Unlimited);
    let order = root_operations(&played.machine.memory.tree).into_iter();
    order.filter_map(|x| account.does(x)).collect()
}

fn value_of(operation: Operation) -> Option<u32> {
    match operation {
        Operation::Put(value) => Some(value),
        Operation::Take => None,
    }
}

/// The answers of a queue that holds some numbers, each put being fed with its number after so many.
fn replies(order: &[Operation], before: u32, held: &[u32]) -> String {
    let mut queue = PlainQueue::default();
    for &number in held {
        queue.feed(Operation::Put(number));
    }
    let mut numbers = before + 1..;
    let answers = order.iter().map(|&operation| match operation {
        Operation::Put(_) => queue.feed(Operation::Put(numbers.next().expect("no last number"))),
        Operation::Take => queue.feed(Operation::Take),
    });
    terms::list(answers.map(|answer| terms::reply(Some(answer))))
}
