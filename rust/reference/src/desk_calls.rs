//! Generator of calls of the desk: lists in which only the licensed process puts entries, and ones with
//! something wrong.

use crate::desk::FIRST_ENTRY;
use crate::hostile::{below, harm_list, insert, tear, WRONG_L, WRONG_P};
use crate::random::Random;
use crate::records::STEP_RECORD_BYTES;
use crate::schedules::{schedule, Plan};

/// The input of a call, but for its buffers.
#[derive(Clone, PartialEq, Eq, Debug)]
pub struct DeskCall {
    pub p: u32,
    pub l: u32,
    pub licensed: u32,
    pub records: Vec<u8>,
}

/// Kinds of a record.
const STEP: u8 = 0;
const PUT: u8 = 1;
const TAKE: u8 = 2;

/// What is made wrong in a call.
#[derive(Clone, Copy, PartialEq, Eq, Debug)]
enum Wrong {
    Processes,
    Operations,
    /// The licensed process at p or past it.
    Licensed,
    Torn,
    /// A put of another process becomes one of an entry, where it was legal.
    Foreign,
    /// An entry of any process, put in anywhere: mostly while it is busy or past L.
    Anywhere,
    /// An ill-formed record with an entry as its value.
    IllFormed,
    /// As of any list of records.
    Harm,
}

const WRONGS: [Wrong; 11] = [
    Wrong::Processes,
    Wrong::Operations,
    Wrong::Licensed,
    Wrong::Torn,
    Wrong::Foreign,
    Wrong::Foreign,
    Wrong::Anywhere,
    Wrong::Anywhere,
    Wrong::IllFormed,
    Wrong::Harm,
    Wrong::Harm,
];

impl DeskCall {
    /// The list of the plan with other operations: the desk takes every record of it. Which steps an
    /// operation does is the same for puts and takes. In half of the lists the licensed process puts and
    /// most of the others take, so that many entries are received.
    pub fn proper(random: &mut Random, plan: &Plan) -> DeskCall {
        let licensed = random.below(plan.p);
        let is_busy = random.chance(1, 2);
        let mut records = schedule(plan);
        for record in begins(&mut records) {
            let is_own = u32::from(record[0]) == licensed;
            if is_busy && (is_own || random.chance(3, 4)) {
                record[1] = if is_own { PUT } else { TAKE };
            }
            let value = match record[1] {
                PUT if is_own && random.chance(3, 4) => an_entry(random),
                PUT => no_entry(random),
                _ => 0,
            };
            set_value(record, value);
        }
        DeskCall {
            p: plan.p,
            l: plan.l,
            licensed,
            records,
        }
    }

    /// A proper call, and in at most two cases of three one or two things wrong with it.
    pub fn hostile(random: &mut Random, plan: &Plan) -> DeskCall {
        let mut call = DeskCall::proper(random, plan);
        for _ in 0..random.below(3) {
            call.spoil(random.pick(&WRONGS), random);
        }
        call
    }

    fn spoil(&mut self, wrong: Wrong, random: &mut Random) {
        let processes = self.p.clamp(1, 8);
        match wrong {
            Wrong::Processes => self.p = random.pick(&WRONG_P),
            Wrong::Operations => self.l = random.pick(&WRONG_L),
            Wrong::Licensed => self.licensed = random.pick(&[self.p, 8, 9, u32::MAX]),
            Wrong::Torn => tear(random, &mut self.records),
            Wrong::Foreign => self.make_foreign(random),
            Wrong::Anywhere => {
                let process = random.below(processes) as u8;
                self.insert_entry(random, [process, PUT, 0, 0]);
            }
            Wrong::IllFormed => {
                let bit = 1 << random.below(8);
                let process = random.below(processes) as u8;
                let first_half = random.pick(&[
                    [processes as u8, PUT, 0, 0],
                    [255, PUT, 0, 0],
                    [process, PUT, bit, 0],
                    [process, PUT, 0, bit],
                    [process, STEP, 0, 0],
                    [process, TAKE, 0, 0],
                    [process, 3, 0, 0],
                ]);
                self.insert_entry(random, first_half);
            }
            Wrong::Harm => harm_list(random, processes, &mut self.records),
        }
    }

    /// A put of another process than the licensed one gets an entry, if there is such a put.
    fn make_foreign(&mut self, random: &mut Random) {
        let licensed = self.licensed;
        let is_foreign = |r: &&mut [u8]| r[1] == PUT && u32::from(r[0]) != licensed;
        let mut foreign: Vec<&mut [u8]> = begins(&mut self.records).filter(is_foreign).collect();
        let at = below(random, foreign.len());
        if let Some(record) = foreign.get_mut(at) {
            set_value(record, an_entry(random));
        }
    }

    /// Puts in a record with this first half and an entry as its value.
    fn insert_entry(&mut self, random: &mut Random, first_half: [u8; 4]) {
        let mut record = [0; STEP_RECORD_BYTES];
        record[..4].copy_from_slice(&first_half);
        set_value(&mut record, an_entry(random));
        insert(random, &mut self.records, record);
    }
}

/// The records that are no steps.
fn begins(records: &mut [u8]) -> impl Iterator<Item = &mut [u8]> {
    let records = records.chunks_exact_mut(STEP_RECORD_BYTES);
    records.filter(|record| record[1] != STEP)
}

fn set_value(record: &mut [u8], value: u32) {
    record[4..].copy_from_slice(&value.to_le_bytes());
}

/// An entry: in one case of four the first, the one after it, or the last.
fn an_entry(random: &mut Random) -> u32 {
    match random.chance(1, 4) {
        true => random.pick(&[FIRST_ENTRY, FIRST_ENTRY + 1, u32::MAX]),
        false => FIRST_ENTRY + random.below(FIRST_ENTRY),
    }
}

/// A value below the entries: in one case of four the last such, or 0.
fn no_entry(random: &mut Random) -> u32 {
    match random.chance(1, 4) {
        true => random.pick(&[0, FIRST_ENTRY - 1]),
        false => random.below(FIRST_ENTRY),
    }
}
