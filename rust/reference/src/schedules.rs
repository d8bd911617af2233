//! Generator of random and hostile lists: it plays the rules to know where each process stands.

use crate::machine::Machine;
use crate::process::StepName;
use crate::random::Random;
use crate::records::{Act, Operation, StepRecord};
use crate::run::play_record;
use crate::tree::Shape;

/// Which process has the next record.
#[derive(Clone, Copy, PartialEq, Eq, Debug)]
pub enum Pace {
    Uniform,
    /// One process runs up to so many records in turn.
    Bursts(u32),
    /// Every process in turn, one record each.
    Lockstep,
    /// An operation runs to its end before the next begins.
    OneAtATime,
    /// A process stops just before or just after a named step while others run on.
    Stalls {
        step: StepName,
        after: bool,
    },
}

/// How a list ends.
#[derive(Clone, Copy, PartialEq, Eq, Debug)]
pub enum Ending {
    /// Every operation of every process is finished.
    AllFinish,
    /// Cut off after so many records.
    Cut(usize),
    /// A stopped process never goes on; the others finish.
    Abandoned,
}

#[derive(Clone, Copy, PartialEq, Eq, Debug)]
pub struct Plan {
    pub p: u32,
    pub l: u32,
    /// Operations that each process begins, at most L.
    pub each: u32,
    /// Puts among eight operations, in the mean.
    pub puts_of_8: u32,
    pub pace: Pace,
    pub ending: Ending,
    pub seed: u64,
}

impl Plan {
    /// L operations of each process, half of them puts, all finished.
    pub fn new(p: u32, l: u32, pace: Pace, seed: u64) -> Plan {
        Plan {
            p,
            l,
            each: l,
            puts_of_8: 4,
            pace,
            ending: Ending::AllFinish,
            seed,
        }
    }

    pub fn puts_of_8(self, puts_of_8: u32) -> Plan {
        Plan { puts_of_8, ..self }
    }

    pub fn ending(self, ending: Ending) -> Plan {
        Plan { ending, ..self }
    }
}

/// The list of the plan; Run takes every record of it.
pub fn schedule(plan: &Plan) -> Vec<u8> {
    let shape = Shape::new(plan.p, plan.l).expect("a plan has a proper p and L");
    let mut maker = Maker {
        plan: *plan,
        random: Random::new(plan.seed),
        machine: Machine::start(shape),
        records: Vec::new(),
        current: 0,
        burst: 0,
        held: vec![0; plan.p as usize],
    };
    while !maker.cut() {
        let able = maker.able();
        let Some(process) = maker.choose(&able) else {
            break;
        };
        maker.play(process);
    }
    maker.records.concat()
}

struct Maker {
    plan: Plan,
    random: Random,
    machine: Machine,
    records: Vec<[u8; 8]>,
    /// The process of the last record.
    current: u32,
    /// Records left in the current burst.
    burst: u32,
    /// For each process, records of others that it still waits for.
    held: Vec<u32>,
}

const FOR_EVER: u32 = u32::MAX;

impl Maker {
    fn cut(&self) -> bool {
        match self.plan.ending {
            Ending::Cut(records) => self.records.len() >= records,
            Ending::AllFinish | Ending::Abandoned => false,
        }
    }

    /// Processes that can have a record: busy ones and those with operations to begin.
    fn able(&self) -> Vec<u32> {
        let has_more =
            |&k: &u32| !self.machine.idle(k) || self.machine.process(k).begun < self.plan.each;
        (0..self.plan.p).filter(has_more).collect()
    }

    fn choose(&mut self, able: &[u32]) -> Option<u32> {
        if able.is_empty() {
            return None;
        }
        let goes_on = able.contains(&self.current);
        match self.plan.pace {
            Pace::Uniform => Some(self.random.pick(able)),
            Pace::Bursts(longest) => {
                if self.burst == 0 || !goes_on {
                    self.burst = 1 + self.random.below(longest);
                    self.current = self.random.pick(able);
                }
                self.burst -= 1;
                Some(self.current)
            }
            Pace::Lockstep => {
                let next = able.iter().find(|&&k| k > self.current);
                Some(*next.unwrap_or(&able[0]))
            }
            Pace::OneAtATime if goes_on && !self.machine.idle(self.current) => Some(self.current),
            Pace::OneAtATime => Some(self.random.pick(able)),
            Pace::Stalls { .. } => self.choose_free(able),
        }
    }

    /// A process that is not stopped; if all are, one goes on unless stops last for ever.
    fn choose_free(&mut self, able: &[u32]) -> Option<u32> {
        let free: Vec<u32> = able
            .iter()
            .copied()
            .filter(|&k| self.held[k as usize] == 0)
            .collect();
        if !free.is_empty() {
            return Some(self.random.pick(&free));
        }
        if self.plan.ending == Ending::Abandoned {
            return None;
        }
        let process = self.random.pick(able);
        self.held[process as usize] = 0;
        Some(process)
    }

    fn play(&mut self, process: u32) {
        let done = self.machine.next_step(process).map(|step| step.name());
        let act = if done.is_none() {
            Act::Begin(self.operation())
        } else {
            Act::Step
        };
        let record = StepRecord { process, act };
        self.records.push(record.bytes());
        play_record(&mut self.machine, self.records.len() as u32, record);
        self.current = process;
        for held in self.held.iter_mut().filter(|held| **held != FOR_EVER) {
            *held = held.saturating_sub(1);
        }
        self.stall(process, done);
    }

    /// Stops the process in half of the cases where it has come to the plan's step.
    fn stall(&mut self, process: u32, done: Option<StepName>) {
        let Pace::Stalls { step, after } = self.plan.pace else {
            return;
        };
        let next = self.machine.next_step(process).map(|step| step.name());
        let reached = if after { done } else { next };
        if reached == Some(step) && self.random.chance(1, 2) {
            self.held[process as usize] = match self.plan.ending {
                Ending::Abandoned => FOR_EVER,
                Ending::AllFinish | Ending::Cut(_) => 10 + self.random.below(50 * self.plan.p),
            };
        }
    }

    fn operation(&mut self) -> Operation {
        if !self.random.chance(self.plan.puts_of_8, 8) {
            return Operation::Take;
        }
        let value = self.random.next() as u32;
        Operation::Put(match self.random.below(16) {
            0 => 0,
            1 => u32::MAX,
            _ => value,
        })
    }
}
