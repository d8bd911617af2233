//! The calls on random lists, and what came up in them.

use crate::calls::Input;
use crate::counts::{in_line, Counts};
use crate::desk::Deliveries;
use crate::forecasts::Forecasts;
use crate::price::Bills;
use crate::random_calls::{near, needed, or_other, random_plan, table};
use otq::{most_answer_bytes, most_order_bytes};
use reference::branches::Branches;
use reference::check::CheckResult;
use reference::demand3::step_limit;
use reference::helps::help_limit;
use reference::hostile::{harm_list, harm_log};
use reference::random::Random;
use reference::records::{Answer, ANSWER_RECORD_BYTES, STEP_RECORD_BYTES};
use reference::schedules::schedule;
use reference::tree::Shape;
use std::fmt;

/// The numbers that the calls can give, by document 01, "What each call turns down".
const RUN: [u32; 10] = [0, 1, 2, 3, 4, 5, 6, 7, 8, 9];
const LIST_ORDER: [u32; 10] = [0, 1, 2, 3, 4, 5, 6, 7, 8, 10];
const CHECK_LOG: [u32; 10] = [0, 1, 2, 3, 4, 5, 6, 7, 8, 11];

/// A log differs in its first record that is unequal, or lacking in it or in the run's own.
const VERDICTS: [&str; 5] = [
    "same",
    "differs: unequal",
    "differs: too short",
    "differs: too long",
    "refused",
];

/// How much was compared, what came up, and the most steps and helps.
#[derive(Clone, Debug)]
pub struct Tally {
    pub lists: u64,
    /// Records taken by the runs with room for every answer.
    pub records: u64,
    run: Counts,
    list_order: Counts,
    check_log: Counts,
    verdicts: Counts,
    /// Of the steps among these records.
    branches: Branches,
    /// For p = 2, 4, 8, the most own steps and the most helps of an operation that finished.
    most_steps: [u8; 3],
    most_helps: [u8; 3],
    forecasts: Forecasts,
    deliveries: Deliveries,
    bills: Bills,
}

impl Default for Tally {
    fn default() -> Tally {
        Tally {
            lists: 0,
            records: 0,
            run: Counts::new("otq_run", RUN),
            list_order: Counts::new("otq_list_order", LIST_ORDER),
            check_log: Counts::new("otq_check_log", CHECK_LOG),
            verdicts: Counts::new("verdict", VERDICTS),
            branches: Branches::default(),
            most_steps: [0; 3],
            most_helps: [0; 3],
            forecasts: Forecasts::default(),
            deliveries: Deliveries::default(),
            bills: Bills::default(),
        }
    }
}

/// Compares calls on random lists until so many records were played, and after each list some prices.
/// Then `told` is handed the tally.
pub fn compare(records: u64, seed: u64, mut told: impl FnMut(&Tally)) -> Tally {
    // Sheets have numbers of their own, so that they do not change the lists of a seed.
    let (mut random, mut of_sheets) = (Random::new(seed), Random::new(!seed));
    let mut tally = Tally::default();
    while tally.records < records {
        tally.compare_list(&mut random);
        tally.bills.compare_hostile(&mut of_sheets);
        told(&tally);
    }
    tally
}

impl Tally {
    /// The calls on one random list.
    fn compare_list(&mut self, random: &mut Random) {
        let plan = random_plan(random);
        let mut records = schedule(&plan);
        harm_list(random, plan.p, &mut records);
        let input = Input {
            p: or_other(random, plan.p),
            l: or_other(random, plan.l),
            records: &records,
        };
        self.lists += 1;
        self.compare_runs(random, input);
        self.compare_lists(random, input);
        self.forecasts.compare_hostile(random);
        self.deliveries.compare_list(random, &plan);
        self.deliveries.compare_short(random);
    }

    /// What never came up, though it can.
    pub fn never_met(&self) -> Vec<String> {
        let calls = [&self.run, &self.list_order, &self.check_log, &self.verdicts];
        let calls = calls.into_iter().flat_map(Counts::met);
        let branches = self.branches.by_step().flat_map(|(step, met)| {
            let met = met.into_iter();
            met.map(move |(finds, times)| (format!("{step}: {finds}"), times))
        });
        let helps = [2, 4, 8].into_iter().zip(self.most_helps);
        let helps = helps.map(|(p, most)| (format!("helps with p = {p}"), most.into()));
        let all = calls.chain(self.forecasts.met());
        let all = all.chain(self.deliveries.met()).chain(self.bills.met());
        let never = all
            .chain(branches)
            .chain(helps)
            .filter(|&(_, times)| times == 0);
        never.map(|(what, _)| what).collect()
    }

    /// Run with all the room that it can use, then on other lengths; and checks of its log.
    fn compare_runs(&mut self, random: &mut Random, input: Input) {
        let most = most_answer_bytes(input.p, input.l).unwrap_or(0);
        let (ran, log) = input.run(needed(input), most);
        self.records += ran.taken;
        self.run.count(ran.refusal);
        self.count_steps(input, ran.taken);
        self.count_answers(input.p, &log);
        self.forecasts.compare_run(random, input, ran, &log);
        let (other, _) = input.run(table(random, input), near(random, log.len()));
        self.run.count(other.refusal);
        let mut given = log.clone();
        harm_log(random, &mut given);
        let checked = input.check_log(table(random, input), &given);
        self.check_log.count(checked.refusal);
        self.verdicts.count(verdict(checked, &log, &given));
    }

    /// List the order with all the room that it can use, then on other lengths.
    fn compare_lists(&mut self, random: &mut Random, input: Input) {
        let most = most_order_bytes(input.p, input.l).unwrap_or(0);
        let listed = input.list_order(table(random, input), most);
        self.list_order.count(listed.refusal);
        let output = near(random, listed.length as usize);
        let listed = input.list_order(needed(input), output);
        self.list_order.count(listed.refusal);
    }

    /// The branches of the steps that a run took, after which its result, table and answers were equal;
    /// a p or L that is turned down has none.
    fn count_steps(&mut self, input: Input, taken: u64) {
        if let Ok(shape) = Shape::new(input.p, input.l) {
            let taken = &input.records[..STEP_RECORD_BYTES * taken as usize];
            self.branches.count_list(shape, taken);
        }
    }

    /// The own steps and helps of a run's answers; a p that is turned down has none.
    fn count_answers(&mut self, p: u32, log: &[u8]) {
        for record in log.chunks_exact(ANSWER_RECORD_BYTES) {
            let answer = Answer::read(record).expect("a log that Run wrote");
            let of_p = p.ilog2() as usize - 1;
            self.most_steps[of_p] = self.most_steps[of_p].max(answer.steps);
            self.most_helps[of_p] = self.most_helps[of_p].max(answer.helps);
        }
    }
}

impl fmt::Display for Tally {
    fn fmt(&self, out: &mut fmt::Formatter) -> fmt::Result {
        writeln!(out, "calls by number, 0 for none refused, and their cases:")?;
        for counts in [&self.run, &self.list_order, &self.check_log, &self.verdicts] {
            writeln!(out, "{counts}")?;
        }
        writeln!(out, "{}", self.forecasts)?;
        writeln!(out, "{}", self.deliveries)?;
        writeln!(out, "{}", self.bills)?;
        writeln!(
            out,
            "steps of these records, whose they are and what they do:"
        )?;
        for (step, met) in self.branches.by_step() {
            writeln!(out, "{step}: {}", in_line(&met))?;
        }
        let most_steps = of_each_p(self.most_steps, step_limit);
        writeln!(out, "most own steps: {most_steps}")?;
        write!(
            out,
            "most helps: {}",
            of_each_p(self.most_helps, help_limit)
        )
    }
}

/// The verdict on a log, with what differs between it and the run's own.
fn verdict(checked: CheckResult, own: &[u8], given: &[u8]) -> &'static str {
    let at = ANSWER_RECORD_BYTES * checked.index as usize;
    match checked.verdict {
        0 => "same",
        2 => "refused",
        _ if at == given.len() => "differs: too short",
        _ if at == own.len() => "differs: too long",
        _ => "differs: unequal",
    }
}

/// The most that was met, for each p beside the limit.
fn of_each_p(most: [u8; 3], limit: fn(Shape) -> u32) -> String {
    let told = |(p, most)| {
        let limit = limit(Shape::new(p, 1).expect("a proper p and L"));
        format!("p = {p}: {most} of {limit}")
    };
    let of_p: Vec<String> = [2, 4, 8].into_iter().zip(most).map(told).collect();
    of_p.join(", ")
}
