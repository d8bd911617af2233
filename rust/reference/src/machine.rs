//! The shared memory with all processes, and one step of one process.

use crate::memory::Memory;
use crate::order::{outcome, root_block_of, Given};
use crate::process::{Activity, Process, Step};
use crate::records::{Answer, Operation};
use crate::steps::one_step;
use crate::tree::Shape;

/// The shared memory and all processes.
#[derive(Clone, PartialEq, Eq, Hash, Debug)]
pub struct Machine {
    pub memory: Memory,
    pub processes: Vec<Process>,
}

impl Machine {
    pub fn start(shape: Shape) -> Machine {
        Machine {
            memory: Memory::start(shape),
            processes: vec![Process::start(); shape.p() as usize],
        }
    }

    pub fn shape(&self) -> Shape {
        self.memory.tree.shape()
    }

    pub fn process(&self, process: u32) -> &Process {
        &self.processes[process as usize]
    }

    pub fn idle(&self, process: u32) -> bool {
        self.process(process).activity == Activity::Idle
    }

    /// The step that the process does next; `None` if it is idle.
    pub fn next_step(&self, process: u32) -> Option<Step> {
        match self.process(process).activity {
            Activity::Idle => None,
            Activity::Busy { step, .. } => Some(step),
        }
    }

    /// Opens an operation; the process must be idle.
    pub fn begin(&mut self, process: u32, operation: Operation) {
        assert!(self.idle(process), "a begin needs an idle process");
        let process = &mut self.processes[process as usize];
        process.begun += 1;
        process.activity = Activity::Busy {
            operation,
            step: Step::A,
            steps: 0,
            helps: 0,
        };
    }

    /// One step of a busy process, by the record with this number; the answer if the step is its Q.
    pub fn step(&mut self, process: u32, number: u32) -> Option<Answer> {
        let Activity::Busy {
            operation,
            step,
            steps,
            helps,
        } = self.process(process).activity
        else {
            panic!("a step needs a busy process");
        };
        let steps = steps + 1;
        let (activity, answer) = if step == Step::Q {
            let answer = self.answer(process, operation, steps, helps);
            (Activity::Idle, Some(answer))
        } else {
            let stepped = one_step(&mut self.memory, process, operation, step, number);
            let busy = Activity::Busy {
                operation,
                step: stepped.next,
                steps,
                helps: helps + u8::from(stepped.helped),
            };
            (busy, None)
        };
        self.processes[process as usize].activity = activity;
        answer
    }

    /// Q: the answer of the process's last operation.
    fn answer(&self, process: u32, operation: Operation, steps: u8, helps: u8) -> Answer {
        let tree = &self.memory.tree;
        let serial = self.process(process).begun;
        let given = Given {
            process,
            place: serial,
        };
        let root_block = root_block_of(tree, given).expect("at Q the operation is in the root");
        Answer {
            process,
            outcome: outcome(tree, given, operation.kind(), root_block),
            steps,
            helps,
            serial,
            root_block,
        }
    }
}
