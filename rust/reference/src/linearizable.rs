//! Checker of one order as a linearization (Herlihy and Wing): of a list's operations, all that
//! finished and some of the others, so that a queue gives the answers and no two are turned round.

use crate::account::{precedes, response, times, Account};
use crate::demand3::Name;

/// What keeps an order from being a linearization.
#[derive(Clone, Copy, PartialEq, Eq, Debug)]
pub enum Fault {
    /// In the order, but no record opened it.
    NotInvoked(Name),
    /// Finished, but not in the order.
    Lacking(Name),
    /// In the order more than once.
    Repeated(Name),
    /// The queue that is fed the order answers something else than its answer record says.
    OtherAnswer(Name),
    /// The first finished before the later began, but the order has them the other way round.
    Turned { first: Name, later: Name },
}

/// Checks that the order is a linearization of the account's list, where the log has its answers.
pub fn linearizes(account: &Account, log: &[u8], order: &[Name]) -> Result<(), Fault> {
    if let Some(&x) = order.iter().find(|&&x| !account.is_opened(x)) {
        return Err(Fault::NotInvoked(x));
    }
    if let Some(&x) = order.iter().find(|&&x| times(x, order) > 1) {
        return Err(Fault::Repeated(x));
    }
    for x in account.finishing() {
        if times(x, order) == 0 {
            return Err(Fault::Lacking(x));
        }
        if response(log, x) != account.queue_answer(x, &[], order) {
            return Err(Fault::OtherAnswer(x));
        }
    }
    for &first in order {
        for &later in order {
            if account.finished_before(first, later) && !precedes(first, later, order) {
                return Err(Fault::Turned { first, later });
            }
        }
    }
    Ok(())
}
