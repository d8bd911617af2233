//! What a record does, in words.

use crate::list::List;
use crate::words::{count, node_name};
use reference::helps::{play_watched, ChildV3};
use reference::machine::Machine;
use reference::memory::Memory;
use reference::process::{Activity, Attempt, Built, Ends, Refresh, Step};
use reference::records::{Act, Answer, Operation, Outcome, StepRecord};
use reference::run::play_record;
use reference::tree::{left_child, parent, right_child, Block, Shape, Totals, ROOT};

/// What a record did: the name of its step, or that it is a begin; and what was read and written.
pub struct Told {
    pub name: String,
    pub words: String,
    /// The answer, if the record ended an operation.
    pub answer: Option<Answer>,
}

/// Plays the record with this number, from 1, of a list, and tells what it did.
pub fn play(machine: &mut Machine, list: &List, number: u32, record: StepRecord) -> Told {
    let process = record.process;
    let busy = machine.next_step(process);
    let Some(step) = busy.filter(|_| record.act == Act::Step) else {
        play_record(machine, number, record);
        return begun(machine, record);
    };
    let seen = Seen {
        memory: &machine.memory,
        list,
        process,
        number,
    };
    let seen = seen.step(step);
    let (answer, v3) = play_watched(machine, number, record);
    let next = machine.next_step(process);
    let did = match (step, answer, next) {
        (Step::A, ..) => written(machine, process),
        (Step::V3 { advance }, ..) => v3.map_or_else(String::new, |v3| {
            let block = machine.memory.tree.block(v3.child, advance.place);
            helped(v3, block, list)
        }),
        (_, Some(answer), _) => ended(answer),
        _ => built(step, next),
    };
    Told {
        name: format!("{:?}", step.name()),
        words: seen + &did,
        answer,
    }
}

fn begun(machine: &Machine, record: StepRecord) -> Told {
    let serial = machine.process(record.process).begun;
    let operation = match record.act {
        Act::Begin(Operation::Put(value)) => format!("a put of {value}"),
        Act::Begin(Operation::Take) | Act::Step => "a take".to_string(),
    };
    Told {
        name: "begin".to_string(),
        words: format!("operation {serial} of the process, {operation}"),
        answer: None,
    }
}

/// The block that A wrote, the last one of the own leaf.
fn written(machine: &Machine, process: u32) -> String {
    let tree = &machine.memory.tree;
    let leaf = tree.shape().leaf(process);
    let place = tree.last_present(leaf);
    let block = tree.block(leaf, place);
    let value = match machine.process(process).activity {
        Activity::Busy {
            operation: Operation::Put(value),
            ..
        } => format!(", value {value}"),
        _ => String::new(),
    };
    let node = name(tree.shape(), leaf);
    let (totals, number) = (block_totals(block), block.number);
    format!("writes block {place} of {node}: {totals}{value}, number {number}")
}

/// Whom the V3 of a child's block helped; or that it was no help, if the head was moved already.
fn helped(v3: ChildV3, block: Block, list: &List) -> String {
    let ChildV3 { child, moved } = v3;
    match moved {
        // Never its own block: what a process wrote, it has advanced before it refreshes a node.
        true => {
            let (writer, record) = (list.process_of(block.number), block.number);
            format!(
                ": a help, moved the head of node {child} for process {writer}'s block of record {record}"
            )
        }
        false => ": moved already, so it does not count as a help".to_string(),
    }
}

/// What came of C3R and C3N.
fn built(step: Step, next: Option<Step>) -> String {
    match (step, next) {
        (_, Some(Step::C3N { totals: sums, .. })) => format!("; together {}", totals(sums)),
        (Step::C3N { .. }, Some(Step::C4 { refresh, built, .. })) => {
            let content = content(refresh.node, built);
            format!("; there is more, so it builds a block: {content}")
        }
        (Step::C3N { .. }, _) => "; there is no more, so the refresh has succeeded".to_string(),
        _ => String::new(),
    }
}

fn ended(answer: Answer) -> String {
    let Answer {
        serial,
        steps,
        helps,
        root_block,
        outcome,
        ..
    } = answer;
    let got = match outcome {
        Outcome::PutDone => "is done".to_string(),
        Outcome::Value(value) => format!("gets {value}"),
        Outcome::Nothing => "gets none".to_string(),
    };
    let (steps, helps) = (count(steps.into(), "step"), count(helps.into(), "help"));
    format!("operation {serial} {got}, in root block {root_block}, after {steps} and {helps}")
}

/// What a process sees before its step.
struct Seen<'a> {
    memory: &'a Memory,
    list: &'a List,
    process: u32,
    /// The number of the record that does the step.
    number: u32,
}

impl Seen<'_> {
    fn step(&self, step: Step) -> String {
        match step {
            Step::A => self.own_leaf(),
            Step::V1 { advance } => format!("reads {}", self.head(parent(advance.node))),
            Step::V2 {
                advance,
                parent_head,
            } => {
                let block = self.block(advance.node, advance.place);
                match self
                    .memory
                    .tree
                    .block(advance.node, advance.place)
                    .superblock
                {
                    0 => format!("sets super of {block} to {parent_head}"),
                    set => format!("finds super of {block} at {set} already, and leaves it"),
                }
            }
            Step::V3 { advance } => {
                let (node, place) = (self.node(advance.node), advance.place);
                match self.memory.head(advance.node) {
                    head if head == place => {
                        format!("raises the head of {node} from {place} to {}", place + 1)
                    }
                    head => {
                        format!("finds the head of {node} at {head} and not {place}, and leaves it")
                    }
                }
            }
            Step::Q => String::new(),
            refreshing => self.refresh_step(refreshing),
        }
    }

    /// R1 to R5.
    fn refresh_step(&self, step: Step) -> String {
        match step {
            Step::R1 {
                refresh: Refresh { node, attempt },
            } => {
                let again = match attempt {
                    Attempt::First => "",
                    Attempt::Second => " a second time",
                };
                format!(
                    "refreshes {}{again}, reads {}",
                    self.node(node),
                    self.head(node)
                )
            }
            Step::R2 { refresh, .. } => format!("reads {}", self.head(left_child(refresh.node))),
            Step::R4 { refresh, .. } => format!("reads {}", self.head(right_child(refresh.node))),
            Step::R3 { refresh, c, .. } => self.look(left_child(refresh.node), c),
            Step::R5 { refresh, c, .. } => self.look(right_child(refresh.node), c),
            building => self.build_step(building),
        }
    }

    /// C1 to C4.
    fn build_step(&self, step: Step) -> String {
        match step {
            Step::C1 { refresh, .. } => self.end("left", left_child(refresh.node)),
            Step::C2 { refresh, .. } => self.end("right", right_child(refresh.node)),
            Step::C3L { refresh, ends, .. } => {
                self.child_block("left", left_child(refresh.node), ends.left)
            }
            Step::C3R { refresh, ends, .. } => {
                self.child_block("right", right_child(refresh.node), ends.right)
            }
            Step::C3N { refresh, h, .. } => {
                let block = self.memory.tree.block(refresh.node, h - 1);
                let size = size(refresh.node, block.size);
                let told = self.block(refresh.node, h - 1);
                format!("reads {told}: {}{size}", block_totals(block))
            }
            Step::C4 { refresh, h, built } => {
                let block = self.block(refresh.node, h);
                match self.memory.tree.block(refresh.node, h).present() {
                    false => {
                        let (content, number) = (content(refresh.node, built), self.number);
                        format!("writes {block}: {content}, number {number}")
                    }
                    true => format!("finds {block} present, so the refresh has failed"),
                }
            }
            other => format!("{other:?}"),
        }
    }

    /// What A reads.
    fn own_leaf(&self) -> String {
        let leaf = self.shape().leaf(self.process);
        let last = self.memory.head(leaf) - 1;
        let totals = block_totals(self.memory.tree.block(leaf, last));
        let (head, block) = (self.head(leaf), self.block(leaf, last));
        format!("reads {head}, and {block}: {totals}; ")
    }

    fn shape(&self) -> Shape {
        self.memory.tree.shape()
    }

    fn node(&self, node: u32) -> String {
        name(self.shape(), node)
    }

    fn head(&self, node: u32) -> String {
        format!(
            "the head of {}: {}",
            self.node(node),
            self.memory.head(node)
        )
    }

    /// A block by its place, with the record that wrote it and whose that is; block 0 and those that are
    /// absent have none.
    fn block(&self, node: u32, place: u32) -> String {
        let told = format!("block {place} of {}", self.node(node));
        match self.memory.tree.block(node, place) {
            Block { number: 0, .. } => told,
            block => {
                let (number, process) = (block.number, self.list.process_of(block.number));
                format!("{told} (by record {number}, process {process})")
            }
        }
    }

    /// R3 and R5.
    fn look(&self, child: u32, c: u32) -> String {
        let block = self.block(child, c);
        match self.memory.tree.block(child, c).present() {
            true => format!("looks at {block}: present, so it helps to advance it"),
            false => format!("looks at {block}: absent"),
        }
    }

    /// C3L and C3R.
    fn child_block(&self, side: &str, child: u32, place: u32) -> String {
        let totals = block_totals(self.memory.tree.block(child, place));
        let block = self.block(child, place);
        format!("reads {block}, the {side} child: {totals}")
    }

    /// C1 and C2.
    fn end(&self, side: &str, child: u32) -> String {
        let end = self.memory.head(child) - 1;
        format!("reads {}, so the end {side} is {end}", self.head(child))
    }
}

/// A node of the tree by its name.
fn name(shape: Shape, node: u32) -> String {
    let is_leaf = shape.height(node) == 0;
    node_name(node, is_leaf.then(|| shape.process_of_leaf(node)))
}

fn totals(Totals { puts, takes }: Totals) -> String {
    let (puts, takes) = (puts as usize, takes as usize);
    format!("{}, {}", count(puts, "put"), count(takes, "take"))
}

fn block_totals(Block { puts, takes, .. }: Block) -> String {
    totals(Totals { puts, takes })
}

/// Only blocks of the root have a size.
fn size(node: u32, size: u32) -> String {
    match node {
        ROOT => format!(", size {size}"),
        _ => String::new(),
    }
}

/// What C3N built and C4 writes in a node.
fn content(node: u32, built: Built) -> String {
    let Ends { left, right } = built.ends;
    let (totals, size) = (totals(built.totals), size(node, built.size));
    format!("{totals}, ends {left} and {right}{size}")
}
