//! The known runs M1 to M11: each call of Run, and what the paper says that it gives.

use crate::lists::List;
use crate::records::{Answer, Outcome, ANSWER_RECORD_BYTES};
use crate::run::RunResult;
use crate::tree::Shape;

/// A call of Run with its result and the answers that it writes.
#[derive(Clone, PartialEq, Eq, Debug)]
pub struct KnownRun {
    pub name: &'static str,
    pub p: u32,
    pub l: u32,
    pub list: Vec<u8>,
    /// Words of the work table.
    pub words: usize,
    /// Bytes lent for answers.
    pub bytes: usize,
    pub result: RunResult,
    pub answers: Vec<Answer>,
}

impl KnownRun {
    /// A call on buffers that are long enough; it takes every record and answers nothing.
    fn new(name: &'static str, p: u32, l: u32, list: List) -> KnownRun {
        let list = list.bytes();
        let shape = Shape::new(p, l).expect("a known run has a proper p and L");
        KnownRun {
            name,
            p,
            l,
            words: shape.words_needed(),
            bytes: ANSWER_RECORD_BYTES * (p * l) as usize,
            result: RunResult {
                refusal: 0,
                taken: (list.len() / 8) as u64,
                answers: 0,
            },
            answers: Vec::new(),
            list,
        }
    }

    /// One more answer; in the known runs each is of a process's first operation.
    fn answer(
        mut self,
        process: u32,
        outcome: Outcome,
        steps: u8,
        helps: u8,
        root_block: u32,
    ) -> KnownRun {
        self.answers.push(Answer {
            process,
            outcome,
            steps,
            helps,
            serial: 1,
            root_block,
        });
        self.result.answers += 1;
        self
    }

    fn refused(mut self, refusal: u32, taken: u64) -> KnownRun {
        self.result.refusal = refusal;
        self.result.taken = taken;
        self
    }

    fn words(self, words: usize) -> KnownRun {
        KnownRun { words, ..self }
    }

    fn bytes(self, bytes: usize) -> KnownRun {
        KnownRun { bytes, ..self }
    }
}

pub fn m2() -> List {
    List::new().put(0, 7).steps(0, 31).take(1).steps(1, 31)
}

pub fn m3() -> List {
    m3_of(5)
}

/// M3 with this value put.
pub fn m3_of(value: u32) -> List {
    let begun = List::new().put(0, value).take(1);
    begun.steps(0, 4).steps(1, 4).steps(0, 13).steps(1, 11)
}

pub fn m4() -> List {
    List::new().take(0).steps(0, 17)
}

pub fn m5() -> List {
    let puts = List::new().put(1, 10).steps(1, 18).put(0, 20).steps(0, 31);
    puts.steps(1, 11).take(2).steps(2, 31)
}

/// M6 by these processes in the place of 0 and 1.
pub fn m6(helped: u32, helper: u32) -> List {
    let begun = List::new().put(helped, 9).steps(helped, 1);
    begun.put(helper, 8).steps(helper, 20).steps(helped, 14)
}

/// A put by 0 and 17 steps: whole at p = 2.
fn one_put() -> List {
    List::new().put(0, 1).steps(0, 17)
}

/// M1 to M11; M10 and M11 on either side of their edge.
pub fn known_runs() -> Vec<KnownRun> {
    use Outcome::{Nothing, PutDone, Value};
    let twice = List::new().put(0, 1).put(0, 2);
    vec![
        KnownRun::new("M1", 2, 24, List::new()),
        KnownRun::new("M2", 4, 24, m2())
            .answer(0, PutDone, 31, 0, 1)
            .answer(1, Value(7), 31, 0, 2),
        KnownRun::new("M3", 2, 24, m3())
            .answer(0, PutDone, 17, 0, 1)
            .answer(1, Value(5), 15, 0, 1),
        KnownRun::new("M4", 2, 24, m4()).answer(0, Nothing, 17, 0, 1),
        KnownRun::new("M5", 4, 24, m5())
            .answer(0, PutDone, 31, 0, 1)
            .answer(1, PutDone, 29, 0, 1)
            .answer(2, Value(10), 31, 0, 2),
        KnownRun::new("M6", 2, 24, m6(0, 1))
            .answer(1, PutDone, 20, 1, 1)
            .answer(0, PutDone, 15, 0, 1),
        KnownRun::new("M7", 2, 1, one_put().put(0, 2))
            .answer(0, PutDone, 17, 0, 1)
            .refused(8, 18),
        KnownRun::new("M8", 2, 24, List::new().steps(0, 1)).refused(7, 0),
        KnownRun::new("M9", 2, 2, twice).refused(6, 1),
        KnownRun::new("M10, 15 bytes", 2, 24, one_put())
            .bytes(15)
            .refused(9, 17),
        KnownRun::new("M10, 16 bytes", 2, 24, one_put())
            .bytes(16)
            .answer(0, PutDone, 17, 0, 1),
        KnownRun::new("M11, 48 words", 2, 1, one_put())
            .words(48)
            .refused(3, 0),
        KnownRun::new("M11, 49 words", 2, 1, one_put())
            .words(49)
            .answer(0, PutDone, 17, 0, 1),
    ]
}
