//! Prices of deliveries, by sheets that are proper and by hostile ones.

use crate::calls::price;
use crate::counts::Counts;
use reference::price::{PriceResult, MOST_DELIVERIES};
use reference::price_calls::PriceCall;
use reference::price_cases::{BillCase, BILL_CASES};
use reference::random::Random;
use std::fmt;

/// The numbers that a price can give, by request h.
const NUMBERS: [u32; 5] = [0, 2, 4, 15, 16];

/// Calls for each list that is played.
const CALLS: u32 = 16;

/// What came up in prices.
#[derive(Clone, Debug)]
pub struct Bills {
    numbers: Counts,
    /// Of the calls that were not refused.
    cases: Counts,
}

impl Default for Bills {
    fn default() -> Bills {
        Bills {
            numbers: Counts::new("price_deliveries", NUMBERS),
            cases: Counts::new("bill with", BILL_CASES.map(BillCase::name)),
        }
    }
}

impl Bills {
    /// Some calls, in most of which something is wrong.
    pub fn compare_hostile(&mut self, random: &mut Random) {
        for _ in 0..CALLS {
            self.compare(&PriceCall::hostile(random, MOST_DELIVERIES));
        }
    }

    pub fn compare(&mut self, call: &PriceCall) -> PriceResult {
        let priced = price(call.count, &call.sheet());
        self.numbers.count(priced.refusal);
        if priced.refusal == 0 {
            for case in BILL_CASES.iter().filter(|case| case.is_shown(call, priced)) {
                self.cases.count(case.name());
            }
        }
        priced
    }

    /// How often each number and case came up.
    pub fn met(&self) -> impl Iterator<Item = (String, u64)> + '_ {
        self.numbers.met().chain(self.cases.met())
    }
}

impl fmt::Display for Bills {
    fn fmt(&self, out: &mut fmt::Formatter) -> fmt::Result {
        write!(out, "{}\n{}", self.numbers, self.cases)
    }
}
