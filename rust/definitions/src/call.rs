//! A call of Run, of list the order and of check a log, and what the reference leaves of it.

use crate::decimal::{bytes, words};
use crate::met::Met;
use crate::row::{Row, Statement};
use reference::branches::Branches;
use reference::check::{check_log, CheckResult};
use reference::list::list_order;
use reference::records::{Answer, ANSWER_RECORD_BYTES, ORDER_RECORD_BYTES, STEP_RECORD_BYTES};
use reference::run::{run, RunResult};
use reference::tree::Shape;

#[derive(Clone)]
pub struct Call {
    pub p: u32,
    pub l: u32,
    pub records: Vec<u8>,
    pub table: Vec<u32>,
    pub answers: Vec<u8>,
    pub output: Vec<u8>,
    pub log: Vec<u8>,
}

impl Call {
    /// On buffers with some room to spare and no zero in them, with the log that Run makes.
    pub fn ample(p: u32, l: u32, records: Vec<u8>) -> Call {
        let needed = Shape::new(p, l).expect("a proper shape").words_needed();
        let begins = records
            .chunks(STEP_RECORD_BYTES)
            .filter(|record| record.get(1) != Some(&0));
        let operations = begins.count();
        let call = Call {
            p,
            l,
            table: kept_words(needed + 3),
            answers: kept_bytes(ANSWER_RECORD_BYTES * operations + 5),
            output: kept_bytes(ORDER_RECORD_BYTES * operations + 3),
            log: Vec::new(),
            records,
        };
        let log = call.own_log();
        Call { log, ..call }
    }

    /// The call with something changed.
    pub fn with(&self, change: impl FnOnce(&mut Call)) -> Call {
        let mut call = self.clone();
        change(&mut call);
        call
    }

    /// The log of the records as Run makes it with room for every answer.
    pub fn own_log(&self) -> Vec<u8> {
        let mut table = self.table.clone();
        let mut log = vec![0; ANSWER_RECORD_BYTES * self.records.len() / STEP_RECORD_BYTES];
        let result = run(self.p, self.l, &self.records, &mut table, &mut log);
        log.truncate(ANSWER_RECORD_BYTES * result.answers as usize);
        log
    }

    /// The theorem that the definitions leave what the reference leaves.
    pub fn row(&self, about: impl Into<String>) -> Row {
        let (right, met) = self.left();
        let theorem = Statement::equal("row", &format!("leaves ({})", self.text()), &right);
        Row {
            about: about.into(),
            met,
            statements: vec![theorem],
        }
    }

    fn text(&self) -> String {
        [
            format!("call {} {}", self.p, self.l),
            bytes(&self.records),
            words(&self.table),
            bytes(&self.answers),
            bytes(&self.output),
            bytes(&self.log),
        ]
        .join(" ")
    }

    /// What the three calls leave.
    fn left(&self) -> (String, Vec<Met>) {
        let (mut run_table, mut answers) = (self.table.clone(), self.answers.clone());
        let ran = run(self.p, self.l, &self.records, &mut run_table, &mut answers);
        let (mut list_table, mut output) = (self.table.clone(), self.output.clone());
        let listed = list_order(self.p, self.l, &self.records, &mut list_table, &mut output);
        let mut check_table = self.table.clone();
        let checked = check_log(self.p, self.l, &self.records, &self.log, &mut check_table);
        let text = [
            format!("left {} {} {}", ran.refusal, ran.taken, ran.answers),
            words(&run_table),
            bytes(&answers),
            format!("{} {}", listed.refusal, listed.length),
            words(&list_table),
            bytes(&output),
            format!("{} {} {}", checked.refusal, checked.verdict, checked.index),
            words(&check_table),
        ];
        let mut met = vec![
            Met::new("run", ran.refusal),
            Met::new("list", listed.refusal),
            Met::new("check", self.verdict_of(checked)),
        ];
        met.extend(self.helps(ran, &answers));
        met.extend(self.branches(ran));
        (text.join(" "), met)
    }

    /// The helps that the answers tell.
    fn helps(&self, ran: RunResult, answers: &[u8]) -> Vec<Met> {
        let answers = answers.chunks_exact(ANSWER_RECORD_BYTES);
        let told = answers.take(ran.answers as usize).map(|record| {
            let answer = Answer::read(record).expect("an answer that Run wrote");
            Met::count("answer helps", answer.helps.into())
        });
        told.collect()
    }

    /// The branches of the steps among the records taken.
    fn branches(&self, ran: RunResult) -> Vec<Met> {
        let mut branches = Branches::default();
        if let Ok(shape) = Shape::new(self.p, self.l) {
            branches.count_list(
                shape,
                &self.records[..STEP_RECORD_BYTES * ran.taken as usize],
            );
        }
        Met::branches(&branches)
    }

    /// The verdict: the same; a record unequal; the log shorter; longer; or the refusal's number.
    fn verdict_of(&self, checked: CheckResult) -> String {
        let own = self.own_log().len() / ANSWER_RECORD_BYTES;
        let given = self.log.len() / ANSWER_RECORD_BYTES;
        match (checked.verdict, checked.index as usize) {
            (0, _) => "same".to_string(),
            (1, index) if index < own && index < given => "unequal".to_string(),
            (1, index) if index == given => "shorter".to_string(),
            (1, _) => "longer".to_string(),
            _ => checked.refusal.to_string(),
        }
    }
}

/// Tables up to this length have words that differ; longer ones would be too long to write so.
const VARIED: usize = 300;

/// Words that show whether they were cleared or kept.
pub fn kept_words(count: usize) -> Vec<u32> {
    let word = |i: usize| if count <= VARIED { 1 + i as u32 } else { 9 };
    (0..count).map(word).collect()
}

/// Bytes that show whether they were written or kept.
pub fn kept_bytes(count: usize) -> Vec<u8> {
    (0..count).map(|i| 1 + (i % 255) as u8).collect()
}
