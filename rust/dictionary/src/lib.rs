//! The legal dictionary: its delivery desk, here, and its [price sheet](price). The code of each is a
//! proved Rattle library; these functions lend it slices. Each needs no other library: the desk plays
//! the queue itself, and the price sheet knows nothing of it.
//!
//! Several processes share a first-in first-out queue, played step by step as a list of step records
//! says. A value of [`FIRST_ENTRY`] or more is a dictionary entry, and what it is above that its term
//! number. The licence names one process, which alone may put entries; anyone may take them. The desk
//! gives the terms that finished takes received, in the order in which the takes took effect, the
//! root order. Of two terms the one whose put is earlier in root order comes first.
//!
//! A step record has 8 bytes: process; kind (0 step, 1 begin put, 2 begin take); two zero bytes; value,
//! 32 bits, low byte first, 0 unless the kind is 1. The licensed process 0 puts term 5, and process 1
//! takes it, 17 steps each:
//!
//! ```
//! use dictionary::{Refusal, FIRST_ENTRY};
//! let [v0, v1, v2, v3] = (FIRST_ENTRY + 5).to_le_bytes();
//! let mut records = vec![0, 1, 0, 0, v0, v1, v2, v3];
//! records.extend([0, 0, 0, 0, 0, 0, 0, 0].repeat(17));
//! records.extend([1, 2, 0, 0, 0, 0, 0, 0]);
//! records.extend([1, 0, 0, 0, 0, 0, 0, 0].repeat(17));
//!
//! assert_eq!(dictionary::terms(2, 24, 0, &records), Ok(vec![5]));
//! assert_eq!(dictionary::terms(2, 24, 1, &records), Err(Refusal::ForeignEntry));
//! let unfinished = &records[..records.len() - 8];
//! assert_eq!(dictionary::terms(2, 24, 0, unfinished), Ok(vec![]));
//! ```

#[cfg_attr(not(archive = "desk"), path = "absent.rs")]
mod archive;
pub mod price;
mod refusal;
mod returned;

pub use refusal::Refusal;
pub use settings::table_words;

use returned::refusal_of;

/// Whether the archive of the desk was there when this crate was built. If not, the calls panic; a
/// program asks first, and says [`NOT_BUILT`].
pub const BUILT: bool = cfg!(archive = "desk");

/// What to do where the archive was not there, and how long it takes.
pub const NOT_BUILT: &str =
    "the proved delivery desk is not built: run `.ci/archive desk` in the repository \
     (many minutes, it proves it), then build this program again";

/// The first value that is an entry, that of term 0.
pub const FIRST_ENTRY: u32 = 1 << 31;

/// Bytes of a term in the output.
pub const TERM_BYTES: usize = 4;

/// What a delivery leaves besides its buffers.
#[derive(Clone, Copy, PartialEq, Eq, Debug)]
pub struct Delivery {
    /// Why the call or a record was turned down; `None` if every record was taken.
    pub refusal: Option<Refusal>,
    /// Terms written, 4 bytes each; 0 with a refusal.
    pub count: u64,
}

/// The term number of a value; `None` if it is no entry.
///
/// ```
/// use dictionary::{term, FIRST_ENTRY};
/// assert_eq!(term(FIRST_ENTRY), Some(0));
/// assert_eq!(term(u32::MAX), Some(FIRST_ENTRY - 1));
/// assert_eq!(term(FIRST_ENTRY - 1), None);
/// ```
pub fn term(value: u32) -> Option<u32> {
    value.checked_sub(FIRST_ENTRY)
}

/// Bytes that are enough for the terms of a list, since each is that of a put by the licensed process,
/// which begins at most l operations: tested and not proved. `None` if p or l is turned down.
///
/// ```
/// assert_eq!(dictionary::most_output_bytes(4, 24), Some(96));
/// assert_eq!(dictionary::most_output_bytes(3, 24), None);
/// assert_eq!(dictionary::most_output_bytes(4, 501), None);
/// ```
pub fn most_output_bytes(p: u32, l: u32) -> Option<usize> {
    settings::operations(p, l).map(|_| TERM_BYTES * l as usize)
}

/// Plays the records, clears and fills the work table, and writes the terms, 4 bytes each, low byte
/// first.
///
/// A call turned down with 1, 2, 13, 3 or 4 changes nothing. A refused record changes nothing and ends
/// the list: the table is left as the queue's run of the records before it leaves it. With
/// [`OutputShort`](Refusal::OutputShort) all records are played. A refusal writes no output, and its
/// count is 0. Table words past [`table_words`] and output bytes past the terms keep their content.
///
/// ```
/// use dictionary::Refusal;
/// let mut records = vec![0, 1, 0, 0, 7, 0, 0, 0x80];
/// records.extend([0; 8].repeat(17));
/// records.extend([1, 2, 0, 0, 0, 0, 0, 0]);
/// records.extend([1, 0, 0, 0, 0, 0, 0, 0].repeat(17));
/// let mut table = vec![9; dictionary::table_words(2, 1).unwrap() + 1];
/// let mut output = [9; 5];
///
/// let short = dictionary::deliver(2, 1, 0, &records, &mut table, &mut output[..3]);
/// assert_eq!((short.refusal, short.count), (Some(Refusal::OutputShort), 0));
/// assert_eq!(output, [9; 5]);
///
/// let delivery = dictionary::deliver(2, 1, 0, &records, &mut table, &mut output);
/// assert_eq!((delivery.refusal, delivery.count), (None, 1));
/// assert_eq!(output, [7, 0, 0, 0, 9]);
/// assert_eq!(table.last(), Some(&9));
/// ```
pub fn deliver(
    p: u32,
    l: u32,
    licensed: u32,
    records: &[u8],
    table: &mut [u32],
    output: &mut [u8],
) -> Delivery {
    let delivered = archive::deliver(p, l, licensed, records, table, output);
    Delivery {
        refusal: refusal_of(delivered.refusal, Refusal::from_number),
        count: delivered.count,
    }
}

/// [`deliver`] in buffers of its own, with room for every term.
///
/// ```
/// use dictionary::Refusal;
/// assert_eq!(dictionary::terms(2, 24, 1, &[]), Ok(vec![]));
/// assert_eq!(dictionary::terms(2, 24, 2, &[]), Err(Refusal::Licence));
/// assert_eq!(dictionary::terms(3, 24, 3, &[]), Err(Refusal::Processes));
/// assert_eq!(dictionary::terms(2, 24, 1, &[0]), Err(Refusal::RecordsTorn));
/// ```
pub fn terms(p: u32, l: u32, licensed: u32, records: &[u8]) -> Result<Vec<u32>, Refusal> {
    let mut table = vec![0; table_words(p, l).unwrap_or(0)];
    let mut output = vec![0; most_output_bytes(p, l).unwrap_or(0)];
    let Delivery { refusal, count } = deliver(p, l, licensed, records, &mut table, &mut output);
    match refusal {
        None => Ok(terms_of(&output[..TERM_BYTES * count as usize])),
        Some(refusal) => Err(refusal),
    }
}

/// The terms in bytes that [`deliver`] wrote.
///
/// ```
/// assert_eq!(dictionary::terms_of(&[7, 0, 0, 0, 0, 1, 0, 0]), [7, 256]);
/// ```
pub fn terms_of(bytes: &[u8]) -> Vec<u32> {
    let (terms, _) = bytes.as_chunks();
    terms.iter().map(|&term| u32::from_le_bytes(term)).collect()
}
