//! Calls of the desk on random and hostile lists, and the claim of the order on the terms that it sends.

use crate::calls::{Delivered, Input};
use crate::counts::Counts;
use crate::random_calls::{near, needed, random_plan_of, table};
use dictionary::{most_output_bytes, TERM_BYTES};
use reference::desk_calls::DeskCall;
use reference::desk_cases::{DeskCase, DESK_CASES};
use reference::desk_order::{takes_received, terms_in_order};
use reference::random::Random;
use reference::schedules::Plan;
use reference::tree::Shape;
use std::fmt;

/// The numbers that the desk can give, by request g.
const NUMBERS: [u32; 12] = [0, 1, 2, 3, 4, 5, 6, 7, 8, 10, 13, 14];

/// Short lists, for each list of any length.
const SHORT: u32 = 8;

/// What came up in calls of the desk.
#[derive(Clone, Debug)]
pub struct Deliveries {
    numbers: Counts,
    /// Of the calls with room for every term.
    cases: Counts,
    /// Terms of these calls.
    terms: u64,
}

impl Default for Deliveries {
    fn default() -> Deliveries {
        Deliveries {
            numbers: Counts::new("desk_deliver", NUMBERS),
            cases: Counts::new("delivery with", DESK_CASES.map(DeskCase::name)),
            terms: 0,
        }
    }
}

impl Deliveries {
    /// A list of the plan with values for the desk, and in most cases something wrong: with room for every
    /// term, then on other lengths.
    pub fn compare_list(&mut self, random: &mut Random, plan: &Plan) {
        let call = DeskCall::hostile(random, plan);
        let input = input(&call);
        let sent = self.compare_amply(&call);
        let output = near(random, TERM_BYTES * sent.terms.len());
        let other = input.deliver(call.licensed, table(random, input), output);
        self.numbers.count(other.result.refusal);
    }

    /// Lists of few operations, which meet most cases soonest.
    pub fn compare_short(&mut self, random: &mut Random) {
        for _ in 0..SHORT {
            let l = 1 + random.below(6);
            let plan = random_plan_of(random, l);
            self.compare_list(random, &plan);
        }
    }

    /// With room for every term. If nothing is refused, the claim of the order holds of the terms.
    pub fn compare_amply(&mut self, call: &DeskCall) -> Delivered {
        let input = input(call);
        let most = most_output_bytes(call.p, call.l).unwrap_or(0);
        let delivered = input.deliver(call.licensed, needed(input), most);
        self.numbers.count(delivered.result.refusal);
        if delivered.result.refusal == 0 {
            self.check_order(call, &delivered);
        }
        delivered
    }

    fn check_order(&mut self, call: &DeskCall, sent: &Delivered) {
        let shape = Shape::new(call.p, call.l).expect("a call that is not refused");
        let in_order = terms_in_order(shape, &call.records, &sent.table, &sent.terms);
        let DeskCall { p, l, licensed, .. } = call;
        assert_eq!(in_order, Ok(()), "p {p}, l {l}, {licensed} licensed");
        self.terms += sent.result.count;
        let received = takes_received(shape, &call.records, &sent.table);
        for case in DESK_CASES.iter().filter(|case| case.is_shown(&received)) {
            self.cases.count(case.name());
        }
    }

    /// How often each number and case came up.
    pub fn met(&self) -> impl Iterator<Item = (String, u64)> + '_ {
        self.numbers.met().chain(self.cases.met())
    }
}

/// A call without its licence.
pub fn input(call: &DeskCall) -> Input<'_> {
    Input {
        p: call.p,
        l: call.l,
        records: &call.records,
    }
}

impl fmt::Display for Deliveries {
    fn fmt(&self, out: &mut fmt::Formatter) -> fmt::Result {
        let Deliveries {
            numbers,
            cases,
            terms,
        } = self;
        write!(out, "{numbers}\n{cases}\nterms in order: {terms}")
    }
}
