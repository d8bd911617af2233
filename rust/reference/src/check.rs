//! Check a log: compares a supplier's answer log with the one Run makes.

use crate::records::ANSWER_RECORD_BYTES;
use crate::refusal::{number, Refusal};
use crate::run::{accept, play_into};

#[derive(Clone, Copy, PartialEq, Eq, Debug)]
pub enum Verdict {
    Same,
    /// Index, from 0, of the first record unequal or lacking in one log.
    Differs(u64),
    Refused(Refusal),
}

/// The verdict as numbers.
#[derive(Clone, Copy, PartialEq, Eq, Debug)]
pub struct CheckResult {
    /// The paper's number, 0 for none.
    pub refusal: u32,
    /// 0 same, 1 differs, 2 refused.
    pub verdict: u32,
    /// The index where the logs differ, else 0.
    pub index: u64,
}

pub fn check_log(p: u32, l: u32, records: &[u8], log: &[u8], table: &mut [u32]) -> CheckResult {
    let (refusal, verdict, index) = match verdict(p, l, records, log, table) {
        Verdict::Same => (None, 0, 0),
        Verdict::Differs(index) => (None, 1, index),
        Verdict::Refused(refusal) => (Some(refusal), 2, 0),
    };
    CheckResult {
        refusal: number(refusal),
        verdict,
        index,
    }
}

pub fn verdict(p: u32, l: u32, records: &[u8], log: &[u8], table: &mut [u32]) -> Verdict {
    let shape = match accept(p, l, records, table) {
        Ok(shape) => shape,
        Err(refusal) => return Verdict::Refused(refusal),
    };
    if !log.len().is_multiple_of(ANSWER_RECORD_BYTES) {
        return Verdict::Refused(Refusal::LogTorn);
    }
    let played = play_into(shape, records, table);
    if let Some(refusal) = played.refusal {
        return Verdict::Refused(refusal);
    }
    let own: Vec<[u8; ANSWER_RECORD_BYTES]> = played.answers.iter().map(|a| a.bytes()).collect();
    compare(&own, log)
}

fn compare(own: &[[u8; ANSWER_RECORD_BYTES]], log: &[u8]) -> Verdict {
    let given: Vec<&[u8]> = log.chunks_exact(ANSWER_RECORD_BYTES).collect();
    let longer = own.len().max(given.len());
    for index in 0..longer {
        let own = own.get(index).map(|record| &record[..]);
        if own != given.get(index).copied() {
            return Verdict::Differs(index as u64);
        }
    }
    Verdict::Same
}
