//! A first-in first-out queue shared by several processes, played step by step as a list of step
//! records says. The code is the proved Rattle library; these functions lend it slices.
//!
//! Every function takes p, the number of processes (2, 4 or 8), and l, the most operations of one
//! process (1 to 500). What is turned down is told by a [`Refusal`]. [`play`], [`list`] and [`check`]
//! have buffers of their own; [`run`], [`list_order`] and [`check_log`] are lent theirs. [`Table`]
//! reads the blocks in the work table that a call left, and [`NODE_STARTS`] has constants for a viewer
//! that reads them itself. [`forecast`] tells from begin records alone what a run will need.
//!
//! A put of 7 by process 0, then a take by process 1, 17 steps each:
//!
//! ```
//! use otq::{Act, Answer, Kind, Order, Outcome, Step};
//! let mut list = vec![Step { process: 0, act: Act::Put(7) }];
//! list.extend([Step { process: 0, act: Act::Step }; 17]);
//! list.push(Step { process: 1, act: Act::Take });
//! list.extend([Step { process: 1, act: Act::Step }; 17]);
//! let records = otq::bytes_of(list);
//!
//! let played = otq::play(2, 24, &records);
//! assert_eq!(played.run.refusal, None);
//! let answers: Vec<Answer> = otq::records_of(&played.answers).unwrap();
//! assert_eq!(answers[1].outcome, Outcome::Value(7));
//!
//! let order: Vec<Order> = otq::records_of(&otq::list(2, 24, &records).unwrap()).unwrap();
//! assert_eq!((order[0].kind, order[1].kind), (Kind::Put, Kind::Take));
//!
//! let verdict = otq::check(2, 24, &records, &played.answers);
//! assert_eq!(verdict, otq::Verdict::Same);
//! ```

#[cfg_attr(not(archive = "queue"), path = "absent.rs")]
mod archive;
mod blocks;
mod node_starts;
mod records;
mod refusal;
mod returned;
mod sizes;

pub use blocks::{Block, Table, ROOT};
pub use node_starts::{NODE_STARTS, NODE_STARTS_L};
pub use records::{bytes_of, records_of, Act, Answer, Kind, NoRecord, Order, Outcome, Step};
pub use refusal::Refusal;
pub use sizes::{most_answer_bytes, most_order_bytes, table_words};

/// Whether the archive of the proved library was there when this crate was built. If not, the calls
/// panic; a program asks first, and says [`NOT_BUILT`].
pub const BUILT: bool = cfg!(archive = "queue");

/// What to do where the archive was not there, and how long it takes.
pub const NOT_BUILT: &str = "the proved library is not built: run `.ci/archive queue` in the \
    repository (many minutes, it proves it), then build this program again";

/// What a run leaves besides its buffers.
#[derive(Clone, Copy, PartialEq, Eq, Debug)]
pub struct Run {
    /// Why the call or a record was turned down; `None` if every record was taken.
    pub refusal: Option<Refusal>,
    /// Records taken.
    pub taken: u64,
    /// Answers written, 16 bytes each.
    pub answers: u64,
}

/// What the check of a log says.
#[derive(Clone, Copy, PartialEq, Eq, Debug)]
pub enum Verdict {
    /// The log is the one that the records give.
    Same,
    /// Index, from 0, of the first answer record that is unequal or lacking in one log.
    Differs(u64),
    /// The call or a record was turned down, and no comparison was made.
    Refused(Refusal),
}

/// What begin records tell of every run of them.
#[derive(Clone, Copy, PartialEq, Eq, Debug)]
pub struct Forecast {
    /// Words of the work table.
    pub words: u64,
    /// Bytes of the answers, 16 a begin.
    pub answer_bytes: u64,
    /// The most records that a run takes.
    pub records: u64,
}

/// A run with the buffers that it filled.
#[derive(Clone, PartialEq, Eq, Debug)]
pub struct Played {
    pub run: Run,
    /// The answer records that were written, and nothing else.
    pub answers: Vec<u8>,
    /// The work table, which [`Table`] reads; empty if p or l is turned down.
    pub table: Vec<u32>,
}

/// Plays the records, clears and fills the work table, and writes the answers.
///
/// A call turned down with 1 to 4 changes nothing. Otherwise the run ends before the first record
/// that is turned down. Table words past [`table_words`] and bytes past the answers keep their
/// content. In the table that a call leaves unless turned down with 1 to 4, a block's superblock,
/// the present block of its parent's that has it as a subblock, stands at the block's super or one
/// place later. The number n of a present block, 1 to `taken`, is that of the record that wrote it: the
/// first n - 1 records leave its place absent, the first n leave it present. In each node the numbers
/// rise strictly with the place, and a block's is above those of all its subblocks. [`Table`] reads the
/// blocks.
///
/// ```
/// let step_of_an_idle_process = [0; 8];
/// let mut table = vec![9; otq::table_words(2, 1).unwrap() + 1];
/// let run = otq::run(2, 1, &step_of_an_idle_process, &mut table, &mut []);
/// assert_eq!(run.refusal, Some(otq::Refusal::StepWhileIdle));
/// assert_eq!((run.taken, run.answers), (0, 0));
/// assert_eq!(table.last(), Some(&9));
/// assert!(table[..table.len() - 1].iter().all(|&word| word == 0));
/// ```
pub fn run(p: u32, l: u32, records: &[u8], table: &mut [u32], answers: &mut [u8]) -> Run {
    let ran = archive::run(p, l, records, table, answers);
    Run {
        refusal: refusal_of(ran.refusal),
        taken: ran.taken,
        answers: ran.answers,
    }
}

/// Plays the records, writes the order records of the root order, and gives their length in bytes.
///
/// A refusal writes no output. The work table is left as [`run`] with room for every answer leaves
/// it, and output bytes past the list keep their content. The order only grows: if, with the same p
/// and l, records and the same records with more after them are both listed without a refusal, the
/// first list is the beginning of the second.
///
/// ```
/// let mut records = vec![0, 1, 0, 0, 7, 0, 0, 0];
/// records.extend([0; 8].repeat(17));
/// let mut table = vec![0; otq::table_words(2, 1).unwrap()];
/// let mut output = [0; 9];
/// let length = otq::list_order(2, 1, &records, &mut table, &mut output);
/// assert_eq!(length, Ok(8));
/// assert_eq!(output, [0, 1, 1, 0, 1, 0, 0, 0, 0]);
/// let refused = otq::list_order(2, 1, &records, &mut table, &mut output[..7]);
/// assert_eq!(refused, Err(otq::Refusal::OutputShort));
///
/// records.extend([1, 2, 0, 0, 0, 0, 0, 0]);
/// records.extend([1, 0, 0, 0, 0, 0, 0, 0].repeat(17));
/// let mut longer = [0; 16];
/// let length = otq::list_order(2, 1, &records, &mut table, &mut longer);
/// assert_eq!(length, Ok(16));
/// assert!(longer.starts_with(&output[..8]));
/// ```
pub fn list_order(
    p: u32,
    l: u32,
    records: &[u8],
    table: &mut [u32],
    output: &mut [u8],
) -> Result<u64, Refusal> {
    let listed = archive::list_order(p, l, records, table, output);
    match refusal_of(listed.refusal) {
        None => Ok(listed.length),
        Some(refusal) => {
            debug_assert_eq!(listed.length, 0);
            Err(refusal)
        }
    }
}

/// Plays the records and compares the log with the answers that they give.
///
/// A call turned down with 1 to 4 or 11 changes nothing. Otherwise the work table is left as [`run`]
/// with room for every answer leaves it.
///
/// ```
/// use otq::Verdict;
/// let mut records = vec![0, 1, 0, 0, 7, 0, 0, 0];
/// records.extend([0; 8].repeat(17));
/// let mut log = otq::play(2, 1, &records).answers;
/// let mut table = vec![0; otq::table_words(2, 1).unwrap()];
/// assert_eq!(otq::check_log(2, 1, &records, &log, &mut table), Verdict::Same);
/// log[3] = 1; // a help too many
/// assert_eq!(otq::check_log(2, 1, &records, &log, &mut table), Verdict::Differs(0));
/// log.pop();
/// let torn = otq::check_log(2, 1, &records, &log, &mut table);
/// assert_eq!(torn, Verdict::Refused(otq::Refusal::LogTorn));
/// ```
pub fn check_log(p: u32, l: u32, records: &[u8], log: &[u8], table: &mut [u32]) -> Verdict {
    let checked = archive::check_log(p, l, records, log, table);
    let refusal = refusal_of(checked.refusal);
    match (checked.verdict, refusal, checked.index) {
        (returned::SAME, None, 0) => Verdict::Same,
        (returned::DIFFERS, None, index) => Verdict::Differs(index),
        (returned::REFUSED, Some(refusal), 0) => Verdict::Refused(refusal),
        other => unreachable!("the library returned {other:?}"),
    }
}

/// Tells from begin records alone, one for each operation, what a run will need. Nothing is played.
///
/// What it tells holds of every list whose begins are these in this order, given to [`run`] with the
/// same p and l, any table and any answer buffer, whether or not a record is turned down: at most
/// `records` records are taken, and at most `answer_bytes` bytes of answers written, exactly so many
/// if nothing is turned down and all operations finish; and with at least `words` table words and
/// `answer_bytes` answer bytes the run ends neither with [`TableShort`](Refusal::TableShort) nor with
/// [`AnswersFull`](Refusal::AnswersFull).
///
/// A step record is [`StepAmongBegins`](Refusal::StepAmongBegins), or
/// [`IllFormed`](Refusal::IllFormed); [`BegunAll`](Refusal::BegunAll) is a begin by a process of which
/// l begins stand before it.
///
/// ```
/// use otq::{Act, Forecast, Refusal, Step};
/// let (put, take) = (Step { process: 0, act: Act::Put(7) }, Step { process: 1, act: Act::Take });
/// let foreseen = otq::forecast(2, 1, &otq::bytes_of([put, take])).unwrap();
/// assert_eq!(foreseen, Forecast { words: 49, answer_bytes: 32, records: 84 });
///
/// let steps = |process| [Step { process, act: Act::Step }; 17];
/// let list = [&[put][..], &steps(0), &[take], &steps(1)].concat();
/// let mut table = vec![0; foreseen.words as usize];
/// let mut answers = vec![0; foreseen.answer_bytes as usize];
/// let run = otq::run(2, 1, &otq::bytes_of(list), &mut table, &mut answers);
/// assert_eq!((run.refusal, 16 * run.answers), (None, foreseen.answer_bytes));
/// assert!(run.taken <= foreseen.records);
///
/// let among = otq::forecast(2, 1, &otq::bytes_of([put, steps(0)[0]]));
/// assert_eq!(among, Err(Refusal::StepAmongBegins));
/// assert_eq!(otq::forecast(2, 1, &otq::bytes_of([put, put])), Err(Refusal::BegunAll));
/// ```
pub fn forecast(p: u32, l: u32, begins: &[u8]) -> Result<Forecast, Refusal> {
    let foreseen = archive::forecast(p, l, begins);
    let forecast = Forecast {
        words: foreseen.words,
        answer_bytes: foreseen.answer_bytes,
        records: foreseen.records,
    };
    match refusal_of(foreseen.refusal) {
        None => Ok(forecast),
        Some(refusal) => {
            let zeros = (forecast.words, forecast.answer_bytes, forecast.records);
            debug_assert_eq!(zeros, (0, 0, 0));
            Err(refusal)
        }
    }
}

/// [`run`] in buffers of its own, with room for every answer.
///
/// ```
/// let played = otq::play(2, 24, &[0, 1, 0, 0, 7, 0, 0, 0]);
/// assert_eq!(played.run.taken, 1);
/// assert!(played.answers.is_empty());
/// assert_eq!(otq::play(3, 24, &[]).run.refusal, Some(otq::Refusal::Processes));
/// ```
pub fn play(p: u32, l: u32, records: &[u8]) -> Played {
    let mut table = vec![0; table_words(p, l).unwrap_or(0)];
    let mut answers = vec![0; most_answer_bytes(p, l).unwrap_or(0)];
    let run = run(p, l, records, &mut table, &mut answers);
    answers.truncate(Answer::BYTES * run.answers as usize);
    Played {
        run,
        answers,
        table,
    }
}

/// [`list_order`] in buffers of its own, with room for every operation: the order records.
///
/// ```
/// let mut records = vec![0, 1, 0, 0, 7, 0, 0, 0];
/// records.extend([0; 8].repeat(17));
/// assert_eq!(otq::list(2, 24, &records), Ok(vec![0, 1, 1, 0, 1, 0, 0, 0]));
/// assert_eq!(otq::list(2, 501, &records), Err(otq::Refusal::Operations));
/// ```
pub fn list(p: u32, l: u32, records: &[u8]) -> Result<Vec<u8>, Refusal> {
    let mut table = vec![0; table_words(p, l).unwrap_or(0)];
    let mut output = vec![0; most_order_bytes(p, l).unwrap_or(0)];
    let length = list_order(p, l, records, &mut table, &mut output)?;
    output.truncate(length as usize);
    Ok(output)
}

/// [`check_log`] in a table of its own.
///
/// ```
/// use otq::Verdict;
/// let records = [0, 1, 0, 0, 7, 0, 0, 0];
/// assert_eq!(otq::check(2, 24, &records, &[]), Verdict::Same);
/// assert_eq!(otq::check(2, 24, &records, &[0; 16]), Verdict::Differs(0));
/// ```
pub fn check(p: u32, l: u32, records: &[u8], log: &[u8]) -> Verdict {
    let mut table = vec![0; table_words(p, l).unwrap_or(0)];
    check_log(p, l, records, log, &mut table)
}

/// The refusal that the library returned as a number; 0 is none.
fn refusal_of(number: u32) -> Option<Refusal> {
    let refusal = Refusal::from_number(number);
    assert_eq!(refusal.map_or(0, Refusal::number), number);
    refusal
}
