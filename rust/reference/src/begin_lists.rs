//! Generator of begin lists for the forecast: proper ones, and ones with something wrong.

use crate::hostile::{below, insert, tear, WRONG_L, WRONG_P};
use crate::random::Random;
use crate::records::{Act, Operation, StepRecord, STEP_RECORD_BYTES};
use crate::tree::MOST_OPERATIONS;

/// The input of a forecast.
#[derive(Clone, PartialEq, Eq, Debug)]
pub struct BeginList {
    pub p: u32,
    pub l: u32,
    pub begins: Vec<u8>,
}

/// What is made wrong in a begin list.
#[derive(Clone, Copy, PartialEq, Eq, Debug)]
enum Wrong {
    Processes,
    Operations,
    Torn,
    /// A record with one byte that makes it ill-formed.
    IllFormed,
    StepAmong,
    /// One process begins L + 1.
    TooMany,
    /// A record of random bytes.
    Noise,
}

const WRONGS: [Wrong; 7] = [
    Wrong::Processes,
    Wrong::Operations,
    Wrong::Torn,
    Wrong::IllFormed,
    Wrong::StepAmong,
    Wrong::TooMany,
    Wrong::Noise,
];

impl BeginList {
    /// Up to so many begins at random, no process more than L.
    pub fn proper(random: &mut Random, p: u32, l: u32, most: u32) -> BeginList {
        let mut left = vec![l; p as usize];
        let mut begins = Vec::new();
        for _ in 0..random.below(1 + most.min(p * l)) {
            let free: Vec<u32> = (0..p).filter(|&k| left[k as usize] > 0).collect();
            let process = random.pick(&free);
            left[process as usize] -= 1;
            begins.extend(begin(random, process));
        }
        BeginList { p, l, begins }
    }

    /// A proper list, and in two cases of three one or two things wrong with it.
    pub fn hostile(random: &mut Random, p: u32, l: u32, most: u32) -> BeginList {
        let mut list = BeginList::proper(random, p, l, most);
        for _ in 0..random.below(3) {
            list.spoil(random.pick(&WRONGS), random);
        }
        list
    }

    fn spoil(&mut self, wrong: Wrong, random: &mut Random) {
        match wrong {
            Wrong::Processes => self.p = random.pick(&WRONG_P),
            Wrong::Operations => self.l = random.pick(&WRONG_L),
            Wrong::Torn => tear(random, &mut self.begins),
            Wrong::IllFormed => self.ill_form(random),
            Wrong::StepAmong => {
                let process = random.below(self.p.clamp(1, 8)) as u8;
                insert(random, &mut self.begins, [process, 0, 0, 0, 0, 0, 0, 0]);
            }
            Wrong::TooMany => {
                let process = random.below(self.p.clamp(1, 8));
                let most = if self.l <= MOST_OPERATIONS { self.l } else { 1 };
                for _ in self.begun(process)..=most {
                    let begin = begin(random, process);
                    insert(random, &mut self.begins, begin);
                }
            }
            Wrong::Noise => {
                let bytes = random.next().to_le_bytes();
                insert(random, &mut self.begins, bytes);
            }
        }
    }

    fn ill_form(&mut self, random: &mut Random) {
        let mut record = [0, random.below(3) as u8, 0, 0, 0, 0, 0, 0];
        match random.below(4) {
            0 => record[0] = random.pick(&[self.p as u8, 8, 255]),
            1 => record[1] = random.pick(&[3, 4, 128, 255]),
            2 => record[2 + below(random, 2)] = 1 << random.below(8),
            // Of a put any value is well-formed.
            _ => {
                record[1] = random.pick(&[0, 2]);
                record[4 + below(random, 4)] = 1 << random.below(8);
            }
        }
        insert(random, &mut self.begins, record);
    }

    fn begun(&self, process: u32) -> u32 {
        let records = self.begins.chunks_exact(STEP_RECORD_BYTES);
        let own = records.filter(|record| u32::from(record[0]) == process && record[1] != 0);
        own.count() as u32
    }
}

/// The record of a put of any value or of a take.
fn begin(random: &mut Random, process: u32) -> [u8; STEP_RECORD_BYTES] {
    let operation = match random.chance(1, 2) {
        true => Operation::Put(random.next() as u32),
        false => Operation::Take,
    };
    let act = Act::Begin(operation);
    StepRecord { process, act }.bytes()
}
