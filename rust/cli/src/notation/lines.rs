//! Records to text.

use super::{Record, MOST};
use otq::{Act, Step};
use std::fmt;

/// A record, and how many times it stands; more than once only if it is a step.
#[derive(Clone, Copy, PartialEq, Eq, Debug)]
pub struct Line {
    pub record: Record,
    pub count: u32,
}

/// The lines of records; steps of one process that follow each other become one line.
///
/// ```
/// let put = [1, 1, 0, 0, 7, 0, 0, 0];
/// let step = [1, 0, 0, 0, 0, 0, 0, 0];
/// let unknown_kind = [0, 3, 0, 0, 0, 0, 0, 0];
/// let records = [put, step, step, unknown_kind];
/// let lines = cli::notation::lines(&records);
/// let text: Vec<String> = lines.map(|line| line.to_string()).collect();
/// assert_eq!(text, ["put 7 by 1", "step 1 x2", "raw 00 03 00 00 00 00 00 00"]);
/// ```
pub fn lines(records: &[Record]) -> impl Iterator<Item = Line> + '_ {
    let runs = records.chunk_by(|record, next| record == next && is_step(*record));
    let lines = runs.flat_map(|run| run.chunks(MOST as usize));
    lines.map(|run| Line {
        record: run[0],
        count: run.len() as u32,
    })
}

fn is_step(record: Record) -> bool {
    Step::try_from(record).is_ok_and(|step| step.act == Act::Step)
}

impl fmt::Display for Line {
    fn fmt(&self, f: &mut fmt::Formatter) -> fmt::Result {
        let Ok(Step { process, act }) = Step::try_from(self.record) else {
            f.write_str("raw")?;
            return self
                .record
                .iter()
                .try_for_each(|byte| write!(f, " {byte:02x}"));
        };
        match act {
            Act::Step if self.count == 1 => write!(f, "step {process}"),
            Act::Step => write!(f, "step {process} x{}", self.count),
            Act::Put(value) => write!(f, "put {value} by {process}"),
            Act::Take => write!(f, "take by {process}"),
        }
    }
}
