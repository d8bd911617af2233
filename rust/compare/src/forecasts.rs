//! Forecasts of the begins of lists and of begins with something wrong, and how near runs come to
//! the limit.

use crate::calls::Input;
use crate::counts::Counts;
use reference::begin_lists::BeginList;
use reference::forecast::{begins_of, record_limit, ForecastResult};
use reference::random::Random;
use reference::run::RunResult;
use reference::tree::Shape;
use std::fmt;

/// The numbers that a forecast can give, by request b.
const NUMBERS: [u32; 7] = [0, 1, 2, 4, 5, 8, 12];

/// Lists of begins with something wrong, for each list that is played.
const HOSTILE: u32 = 8;

/// What came up in forecasts, and how near the runs came.
#[derive(Clone, Debug)]
pub struct Forecasts {
    numbers: Counts,
    /// For p = 2, 4, 8, the records taken for each begin, in the list that took most.
    nearest: [f64; 3],
}

impl Default for Forecasts {
    fn default() -> Forecasts {
        Forecasts {
            numbers: Counts::new("otq_forecast", NUMBERS),
            nearest: [0.0; 3],
        }
    }
}

impl Forecasts {
    /// The forecast of the begins of a list, which its run with all the room that it can use must stay
    /// within; at times also a run with just what was foreseen.
    pub fn compare_run(&mut self, random: &mut Random, input: Input, ran: RunResult, log: &[u8]) {
        let Input { p, l, records } = input;
        let begins = begins_of(records);
        let foreseen = self.compare(p, l, &begins);
        if foreseen.refusal != 0 {
            assert_ne!(ran.refusal, 0, "p {p}, l {l}: only the forecast refuses");
            return;
        }
        assert!(ran.taken <= foreseen.records, "p {p}, l {l}: records");
        let bytes = log.len() as u64;
        assert!(bytes <= foreseen.answer_bytes, "p {p}, l {l}: answers");
        if random.chance(1, 4) {
            let (words, bytes) = (foreseen.words as usize, foreseen.answer_bytes as usize);
            assert_eq!(input.run(words, bytes).0, ran, "p {p}, l {l}: not enough");
        }
        if !begins.is_empty() {
            let each = ran.taken as f64 / (begins.len() / 8) as f64;
            let most = &mut self.nearest[height(p) - 1];
            *most = most.max(each);
        }
    }

    /// Forecasts of begins that are mostly refused.
    pub fn compare_hostile(&mut self, random: &mut Random) {
        for _ in 0..HOSTILE {
            let p = random.pick(&[2, 4, 8]);
            let l = match random.below(4) {
                0 => random.pick(&[499, 500]),
                1 => 1 + random.below(100),
                _ => 1 + random.below(4),
            };
            let list = BeginList::hostile(random, p, l, p * l);
            self.compare(list.p, list.l, &list.begins);
        }
    }

    fn compare(&mut self, p: u32, l: u32, records: &[u8]) -> ForecastResult {
        let foreseen = Input { p, l, records }.forecast();
        self.numbers.count(foreseen.refusal);
        foreseen
    }

    /// How often each number came up.
    pub fn met(&self) -> impl Iterator<Item = (String, u64)> + '_ {
        self.numbers.met()
    }
}

fn height(p: u32) -> usize {
    p.ilog2() as usize
}

impl fmt::Display for Forecasts {
    fn fmt(&self, out: &mut fmt::Formatter) -> fmt::Result {
        write!(out, "{}", self.numbers)?;
        for p in [2, 4, 8] {
            let shape = Shape::new(p, 1).expect("a proper p and L");
            let (records, limit) = (self.nearest[height(p) - 1], record_limit(shape));
            write!(out, "\nnearest to the limit at p = {p}: ")?;
            write!(out, "{records:.1} of {limit} records an operation")?;
        }
        Ok(())
    }
}
