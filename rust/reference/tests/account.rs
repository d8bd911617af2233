//! The terms of demand 3 on a small list whose account is plain, and a checker of linearizations.

use crate::support::{one_by_one, run_amply, written};
use reference::account::{
    block_of, precedes, response, root_operations, stands_in, times, Account, Event,
};
use reference::demand3::Name;
use reference::known_runs::m6;
use reference::linearizable::{linearizes, Fault};
use reference::lists::List;
use reference::records::{Operation, Outcome};
use reference::schedules::{schedule, Ending, Pace, Plan};
use reference::tree::{Shape, Tree};

fn name(process: u32, serial: u32) -> Name {
    Name { process, serial }
}

/// A put by 0 that finishes, then a take by 1 that does 16 steps and has only its Q to do, then a
/// put by 0 that does 2 steps; with the table and the log that Run leaves.
fn small() -> (Account, Tree, Vec<u8>) {
    let list = List::new().put(0, 5).steps(0, 17).take(1).steps(1, 16);
    let list = list.put(0, 6).steps(0, 2).bytes();
    let shape = Shape::new(2, 2).unwrap();
    let after = run_amply(2, 2, &list);
    let account = Account::of(shape, &list).unwrap();
    let tree = Tree::from_words(shape, &after.table);
    (account, tree, written(&after).to_vec())
}

#[test]
fn begins_ends_and_steps() {
    let (account, ..) = small();
    let asked = [name(0, 1), name(1, 1), name(0, 2), name(0, 3), name(1, 2)];
    assert_eq!(
        asked.map(|x| (
            account.is_opened(x),
            account.is_finished(x),
            account.own_steps(x)
        )),
        [
            (true, true, 17),
            (true, false, 16),
            (true, false, 2),
            (false, false, 0),
            (false, false, 0)
        ]
    );
    assert_eq!(asked.map(|x| account.own_helps(x)), [0; 5]);
    let (put, take) = (Operation::Put, Operation::Take);
    assert_eq!(
        asked.map(|x| account.does(x)),
        [Some(put(5)), Some(take), Some(put(6)), None, None]
    );
    assert_eq!(account.opening(), [name(0, 1), name(1, 1), name(0, 2)]);
    assert_eq!(account.finishing(), [name(0, 1)]);
}

#[test]
fn the_order_of_ends_and_not_of_begins() {
    let account = Account::of(Shape::new(2, 3).unwrap(), &m6(0, 1).bytes()).unwrap();
    assert_eq!(account.opening(), [name(0, 1), name(1, 1)]);
    assert_eq!(account.finishing(), [name(1, 1), name(0, 1)]);
    assert!(!account.finished_before(name(1, 1), name(0, 1)));
}

#[test]
fn what_finished_before_what() {
    let (account, ..) = small();
    let before = |x, y| account.finished_before(x, y);
    assert!(before(name(0, 1), name(1, 1)) && before(name(0, 1), name(0, 2)));
    assert!(!before(name(0, 1), name(0, 1)) && !before(name(1, 1), name(0, 2)));
    assert!(!before(name(0, 1), name(0, 3)) && !before(name(1, 1), name(0, 1)));
}

#[test]
fn what_each_record_does() {
    let (account, ..) = small();
    let events = account.events();
    assert_eq!(events.len(), 38);
    assert_eq!(events[0], Event::Opens(name(0, 1), Operation::Put(5)));
    assert_eq!(events[1..17], [Event::Moves(name(0, 1), false); 16]);
    assert_eq!(events[17], Event::Finishes(name(0, 1)));
    assert_eq!(events[18], Event::Opens(name(1, 1), Operation::Take));
    assert_eq!(events[19..35], [Event::Moves(name(1, 1), false); 16]);
    assert_eq!(events[35], Event::Opens(name(0, 2), Operation::Put(6)));
    assert_eq!(events[36..], [Event::Moves(name(0, 2), false); 2]);
}

/// In M6 the 10th step of process 1, record 12, moves the head of the other leaf.
#[test]
fn the_record_that_helps() {
    let account_of = |list: &[u8]| Account::of(Shape::new(2, 2).unwrap(), list).unwrap();
    let list = m6(0, 1).put(1, 7).steps(1, 17).bytes();
    let account = account_of(&list);
    let helps = |event: &Event| matches!(event, Event::Moves(_, true));
    let events = account.events();
    assert_eq!(events[12], Event::Moves(name(1, 1), true));
    assert_eq!(events.iter().filter(|event| helps(event)).count(), 1);
    let asked = [name(0, 1), name(1, 1), name(1, 2), name(0, 2)];
    assert_eq!(asked.map(|x| account.own_helps(x)), [0, 1, 0, 0]);
    // An operation that has not finished has its helps too.
    for (taken, helps) in [(12, 0), (13, 1)] {
        let account = account_of(&list[..8 * taken]);
        assert!(!account.is_finished(name(1, 1)));
        assert_eq!(account.own_helps(name(1, 1)), helps);
    }
}

#[test]
fn where_each_stands() {
    let (_, tree, _) = small();
    assert_eq!(root_operations(&tree), [name(0, 1), name(1, 1)]);
    let standing = |x| [0, 1, 2, 3].map(|b| stands_in(&tree, x, b));
    assert_eq!(standing(name(0, 1)), [0, 1, 0, 0]);
    assert_eq!(standing(name(1, 1)), [0, 0, 1, 0]);
    assert_eq!(standing(name(0, 2)), [0, 0, 0, 0]);
    let asked = [name(0, 1), name(1, 1), name(0, 2)];
    assert_eq!(asked.map(|x| block_of(&tree, x)), [Some(1), Some(2), None]);
}

#[test]
fn times_and_places_in_an_order() {
    let (x, y, z) = (name(0, 1), name(1, 1), name(0, 2));
    let order = [x, y, x];
    assert_eq!([x, y, z].map(|x| times(x, &order)), [2, 1, 0]);
    assert!(precedes(x, y, &order) && precedes(y, x, &order) && precedes(x, x, &order));
    assert!(!precedes(y, y, &order) && !precedes(x, z, &order) && !precedes(z, x, &order));
}

#[test]
fn what_the_queue_answers() {
    let (account, tree, log) = small();
    let (put, take, later) = (name(0, 1), name(1, 1), name(0, 2));
    let root = root_operations(&tree);
    let answer = |x| account.queue_answer(x, &[], &root);
    assert_eq!(
        [put, take, later].map(answer),
        [Some(Outcome::PutDone), Some(Outcome::Value(5)), None]
    );
    assert_eq!(account.queue_after(&[], &root), []);
    let other = [take, later, put];
    let answer = |held| account.queue_answer(take, held, &other);
    assert_eq!(answer(&[]), Some(Outcome::Nothing));
    assert_eq!(answer(&[8, 9]), Some(Outcome::Value(8)));
    assert_eq!(account.queue_after(&[8, 9], &other), [9, 6, 5]);
    let responses = [put, take, later].map(|x| response(&log, x));
    assert_eq!(responses, [Some(Outcome::PutDone), None, None]);
}

#[test]
fn the_root_order_is_a_linearization() {
    for seed in 0..60 {
        let ending = [Ending::AllFinish, Ending::Cut(70), Ending::Abandoned][seed as usize % 3];
        let p = [2, 4, 8][seed as usize / 3 % 3];
        let list = schedule(&Plan::new(p, 4, Pace::Uniform, seed).ending(ending));
        let after = run_amply(p, 4, &list);
        let shape = Shape::new(p, 4).unwrap();
        let account = Account::of(shape, &list).unwrap();
        let order = root_operations(&Tree::from_words(shape, &after.table));
        assert_eq!(linearizes(&account, written(&after), &order), Ok(()));
    }
}

#[test]
fn what_is_no_linearization() {
    let list = one_by_one();
    let account = Account::of(Shape::new(2, 2).unwrap(), &list).unwrap();
    let log = written(&run_amply(2, 2, &list)).to_vec();
    let [a, b, c, d] = [name(0, 1), name(1, 1), name(0, 2), name(1, 2)];
    let fault = |order: &[Name]| linearizes(&account, &log, order);
    assert_eq!(fault(&[a, b, c, d]), Ok(()));
    assert_eq!(fault(&[a, b, c]), Err(Fault::Lacking(d)));
    assert_eq!(fault(&[a, b, b, c, d]), Err(Fault::Repeated(b)));
    let stranger = name(0, 3);
    assert_eq!(
        fault(&[a, b, c, d, stranger]),
        Err(Fault::NotInvoked(stranger))
    );
    assert_eq!(
        fault(&[a, c, b, d]),
        Err(Fault::Turned { first: b, later: c })
    );
    assert_eq!(fault(&[b, a, c, d]), Err(Fault::OtherAnswer(c)));
    // Two puts of one process, which are done in either order.
    let list = List::new().whole_puts(0, 2, 17).bytes();
    let account = Account::of(Shape::new(2, 2).unwrap(), &list).unwrap();
    let log = written(&run_amply(2, 2, &list)).to_vec();
    assert_eq!(linearizes(&account, &log, &[a, c]), Ok(()));
    assert_eq!(
        linearizes(&account, &log, &[c, a]),
        Err(Fault::Turned { first: a, later: c })
    );
}
