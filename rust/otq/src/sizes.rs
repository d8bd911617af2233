//! How long a caller's buffers have to be.

use crate::records::{Answer, Order};
use settings::operations;
pub use settings::table_words;

/// Bytes of the answers of all operations, the most that [`run`](crate::run) writes; `None` if p
/// or l is turned down.
///
/// ```
/// assert_eq!(otq::most_answer_bytes(4, 24), Some(1536));
/// assert_eq!(otq::most_answer_bytes(4, 0), None);
/// ```
pub fn most_answer_bytes(p: u32, l: u32) -> Option<usize> {
    Some(Answer::BYTES * operations(p, l)?)
}

/// Bytes of the order records of all operations, the most that
/// [`list_order`](crate::list_order) writes; `None` if p or l is turned down.
///
/// ```
/// assert_eq!(otq::most_order_bytes(4, 24), Some(768));
/// assert_eq!(otq::most_order_bytes(0, 24), None);
/// ```
pub fn most_order_bytes(p: u32, l: u32) -> Option<usize> {
    Some(Order::BYTES * operations(p, l)?)
}
