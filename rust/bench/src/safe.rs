//! Run in safe Rust: processes in place, an enum of steps with their registers.

use crate::layout::{first_blocks, BLOCK_WORDS, LEFT, NUMBER, PUTS, RIGHT, SIZE, SUPER, TAKES};
use crate::ran::Ran;

type Block = [u32; BLOCK_WORDS];

/// What C3N builds: the words of a block before its number.
type Built = [u32; NUMBER];

#[derive(Clone, Copy)]
enum Operation {
    Put(u32),
    Take,
}

/// The refresh that an operation is inside of; `tries` counts those of this node before it, and
/// `head` is the one that R1 read.
#[derive(Clone, Copy)]
struct Refresh {
    node: u32,
    tries: u32,
    head: u32,
}

/// What follows an advance.
#[derive(Clone, Copy)]
enum After {
    Right,
    Ends,
    Again,
    Up,
}

#[derive(Clone, Copy)]
struct Advance {
    node: u32,
    place: u32,
    after: After,
}

/// The places of the children's blocks that C1 and C2 found.
#[derive(Clone, Copy)]
struct Ends {
    left: u32,
    right: u32,
}

#[derive(Clone, Copy)]
struct Totals {
    puts: u32,
    takes: u32,
}

#[derive(Clone, Copy)]
enum Step {
    A,
    V1(Refresh, Advance),
    V2(Refresh, Advance, u32),
    V3(Refresh, Advance),
    R1 { node: u32, tries: u32 },
    R2(Refresh),
    R3(Refresh, u32),
    R4(Refresh),
    R5(Refresh, u32),
    C1(Refresh),
    C2(Refresh, u32),
    C3L(Refresh, Ends),
    C3R(Refresh, Ends, Totals),
    C3N(Refresh, Ends, Totals),
    C4(Refresh, Built),
    Q,
}

#[derive(Clone, Copy)]
enum Activity {
    Idle,
    Busy { operation: Operation, step: Step },
}

#[derive(Clone, Copy)]
struct Process {
    activity: Activity,
    begun: u32,
    steps: u8,
    /// Heads of children that the operation moved inside refreshes.
    helps: u8,
}

/// The blocks of all nodes and their heads.
struct Memory<'a> {
    p: u32,
    blocks: &'a mut [Block],
    /// By node number, the index of the node's block 0; entry v + 1 is where node v ends.
    first: [usize; 17],
    heads: [u32; 16],
}

impl Memory<'_> {
    #[inline]
    fn head(&self, node: u32) -> u32 {
        self.heads[node as usize]
    }

    #[inline]
    fn block(&self, node: u32, place: u32) -> &Block {
        &self.blocks[self.first[node as usize] + place as usize]
    }

    #[inline]
    fn block_mut(&mut self, node: u32, place: u32) -> &mut Block {
        &mut self.blocks[self.first[node as usize] + place as usize]
    }

    #[inline]
    fn totals(&self, node: u32, place: u32) -> Totals {
        let block = self.block(node, place);
        Totals {
            puts: block[PUTS],
            takes: block[TAKES],
        }
    }

    /// One place past the node's end reads as absent.
    #[inline]
    fn present(&self, node: u32, place: u32) -> bool {
        let index = self.first[node as usize] + place as usize;
        index < self.first[node as usize + 1] && present(&self.blocks[index])
    }

    /// Any step but Q, by the record with this number; `step` becomes the one that follows it.
    /// Whether it moved a child's head inside a refresh.
    #[inline]
    fn step(&mut self, leaf: u32, operation: Operation, step: &mut Step, number: u32) -> bool {
        match *step {
            Step::A => *step = self.append(leaf, operation, number),
            Step::V1(refresh, advance) => {
                *step = Step::V2(refresh, advance, self.head(advance.node / 2));
            }
            Step::V2(refresh, advance, above) => {
                let block = self.block_mut(advance.node, advance.place);
                if block[SUPER] == 0 {
                    block[SUPER] = above;
                }
                *step = Step::V3(refresh, advance);
            }
            Step::V3(refresh, advance) => {
                let head = &mut self.heads[advance.node as usize];
                let moves = *head == advance.place;
                if moves {
                    *head += 1;
                }
                *step = resume(refresh, advance.after);
                return moves && matches!(advance.after, After::Right | After::Ends);
            }
            Step::R1 { node, tries } => {
                let head = self.head(node);
                *step = Step::R2(Refresh { node, tries, head });
            }
            Step::R2(refresh) => *step = Step::R3(refresh, self.head(2 * refresh.node)),
            Step::R3(refresh, place) => {
                *step = self.help(refresh, 2 * refresh.node, place, After::Right);
            }
            Step::R4(refresh) => *step = Step::R5(refresh, self.head(2 * refresh.node + 1)),
            Step::R5(refresh, place) => {
                *step = self.help(refresh, 2 * refresh.node + 1, place, After::Ends);
            }
            Step::C1(refresh) => *step = Step::C2(refresh, self.head(2 * refresh.node) - 1),
            Step::C2(refresh, left) => {
                let right = self.head(2 * refresh.node + 1) - 1;
                *step = Step::C3L(refresh, Ends { left, right });
            }
            Step::C3L(refresh, ends) => {
                *step = Step::C3R(refresh, ends, self.totals(2 * refresh.node, ends.left));
            }
            Step::C3R(refresh, ends, left) => {
                let right = self.totals(2 * refresh.node + 1, ends.right);
                let sums = Totals {
                    puts: left.puts + right.puts,
                    takes: left.takes + right.takes,
                };
                *step = Step::C3N(refresh, ends, sums);
            }
            Step::C3N(refresh, ends, sums) => *step = self.build(refresh, ends, sums),
            Step::C4(refresh, built) => {
                let block = self.block_mut(refresh.node, refresh.head);
                let success = !present(block);
                if success {
                    block[..NUMBER].copy_from_slice(&built);
                    block[NUMBER] = number;
                }
                let after = if success || refresh.tries == 1 {
                    After::Up
                } else {
                    After::Again
                };
                *step = advance(refresh, refresh.node, refresh.head, after);
            }
            Step::Q => unreachable!("Q is answered, not stepped"),
        }
        false
    }

    #[inline]
    fn append(&mut self, leaf: u32, operation: Operation, number: u32) -> Step {
        let head = self.head(leaf);
        let before = self.block(leaf, head - 1);
        let (puts, takes) = (before[PUTS], before[TAKES]);
        *self.block_mut(leaf, head) = match operation {
            Operation::Put(value) => [puts + 1, takes, 0, value, 0, 0, number],
            Operation::Take => [puts, takes + 1, 0, 0, 0, 0, number],
        };
        let refresh = Refresh {
            node: leaf,
            tries: 0,
            head,
        };
        advance(refresh, leaf, head, After::Up)
    }

    #[inline]
    fn help(&self, refresh: Refresh, child: u32, place: u32, after: After) -> Step {
        if self.present(child, place) {
            advance(refresh, child, place, after)
        } else {
            resume(refresh, after)
        }
    }

    #[inline]
    fn build(&self, refresh: Refresh, ends: Ends, sums: Totals) -> Step {
        let node = refresh.node;
        let old = self.block(node, refresh.head - 1);
        let (Ends { left, right }, Totals { puts, takes }) = (ends, sums);
        if puts == old[PUTS] && takes == old[TAKES] {
            return above(node);
        }
        let size = if node == 1 {
            (old[SIZE] + (puts - old[PUTS])).saturating_sub(takes - old[TAKES])
        } else {
            0
        };
        Step::C4(refresh, [puts, takes, 0, left, right, size])
    }

    /// The first place of the node from `low + 1` to `high` whose word reaches `wanted`. The word
    /// does not fall with the place, and at `high` it reaches `wanted`.
    fn first_reaching(&self, node: u32, word: usize, low: u32, high: u32, wanted: u32) -> u32 {
        let from = self.first[node as usize];
        let places = &self.blocks[from + low as usize + 1..from + high as usize];
        low + 1 + places.partition_point(|block| block[word] < wanted) as u32
    }

    /// The root block that holds a leaf's place, and its rank there among the takes.
    fn root_block(&self, leaf: u32, place: u32) -> (u32, u32) {
        let (mut node, mut place, mut rank) = (leaf, place, 1);
        while node > 1 {
            let parent = node / 2;
            let word = LEFT + (node % 2) as usize;
            let last = self.head(parent) - 1;
            let up = self.first_reaching(parent, word, 0, last, place);
            let (block, before) = (self.block(parent, up), self.block(parent, up - 1));
            rank += self.block(node, place - 1)[TAKES] - self.block(node, before[word])[TAKES];
            if word == RIGHT {
                let left = node - 1;
                rank += self.block(left, block[LEFT])[TAKES];
                rank -= self.block(left, before[LEFT])[TAKES];
            }
            (node, place) = (parent, up);
        }
        (place, rank)
    }

    /// The value of put number `number`, from 1, in root order; root block `reached` has that many.
    fn put_value(&self, number: u32, reached: u32) -> u32 {
        let mut node = 1;
        let mut place = self.first_reaching(1, PUTS, 0, reached, number);
        let mut rank = number - self.block(1, place - 1)[PUTS];
        while node < self.p {
            let (block, before) = (self.block(node, place), self.block(node, place - 1));
            let left = 2 * node;
            let base = self.block(left, before[LEFT])[PUTS];
            let in_left = self.block(left, block[LEFT])[PUTS] - base;
            let (child, low, high, base) = if rank <= in_left {
                (left, before[LEFT], block[LEFT], base)
            } else {
                rank -= in_left;
                let base = self.block(left + 1, before[RIGHT])[PUTS];
                (left + 1, before[RIGHT], block[RIGHT], base)
            };
            place = self.first_reaching(child, PUTS, low, high, base + rank);
            rank -= self.block(child, place - 1)[PUTS] - base;
            node = child;
        }
        self.block(node, place)[LEFT]
    }

    fn answer(&self, k: u8, process: &Process, operation: Operation) -> [u8; 16] {
        let serial = process.begun;
        let (b, rank) = self.root_block(self.p + u32::from(k), serial);
        let (kind, value) = match operation {
            Operation::Put(_) => (1, 0),
            Operation::Take => {
                let (block, before) = (self.block(1, b), self.block(1, b - 1));
                let held = before[SIZE] + (block[PUTS] - before[PUTS]);
                if held < rank {
                    (3, 0)
                } else {
                    (2, self.put_value(rank + before[PUTS] - before[SIZE], b))
                }
            }
        };
        let mut bytes = [0; 16];
        bytes[0] = k;
        bytes[1] = kind;
        bytes[2] = process.steps;
        bytes[3] = process.helps;
        bytes[4..8].copy_from_slice(&value.to_le_bytes());
        bytes[8..12].copy_from_slice(&serial.to_le_bytes());
        bytes[12..16].copy_from_slice(&b.to_le_bytes());
        bytes
    }
}

#[inline]
fn present(block: &Block) -> bool {
    block[PUTS] != 0 || block[TAKES] != 0
}

#[inline]
fn advance(refresh: Refresh, node: u32, place: u32, after: After) -> Step {
    let advance = Advance { node, place, after };
    if node == 1 {
        Step::V3(refresh, advance)
    } else {
        Step::V1(refresh, advance)
    }
}

#[inline]
fn above(node: u32) -> Step {
    if node == 1 {
        Step::Q
    } else {
        Step::R1 {
            node: node / 2,
            tries: 0,
        }
    }
}

#[inline]
fn resume(refresh: Refresh, after: After) -> Step {
    match after {
        After::Right => Step::R4(refresh),
        After::Ends => Step::C1(refresh),
        After::Again => Step::R1 {
            node: refresh.node,
            tries: 1,
        },
        After::Up => above(refresh.node),
    }
}

enum Act {
    Step,
    Begin(Operation),
}

/// The process and what it does; `None` if the record is ill-formed.
#[inline]
fn decode(record: [u8; 8], p: u32) -> Option<(usize, Act)> {
    let [process, kind, 0, 0, value @ ..] = record else {
        return None;
    };
    if u32::from(process) >= p {
        return None;
    }
    let act = match (kind, u32::from_le_bytes(value)) {
        (0, 0) => Act::Step,
        (1, value) => Act::Begin(Operation::Put(value)),
        (2, 0) => Act::Begin(Operation::Take),
        _ => return None,
    };
    Some((usize::from(process), act))
}

pub fn run(p: u32, l: u32, records: &[u8], table: &mut [u32], answers: &mut [u8]) -> Ran {
    let first = match first_blocks(p, l) {
        Ok(first) => first,
        Err(refusal) => return Ran::refused(refusal),
    };
    let Some((blocks, _)) = table.as_chunks_mut().0.split_at_mut_checked(first[16]) else {
        return Ran::refused(3);
    };
    let (records, []) = records.as_chunks() else {
        return Ran::refused(4);
    };
    blocks.fill([0; BLOCK_WORDS]);
    let mut memory = Memory {
        p,
        blocks,
        first,
        heads: [1; 16],
    };
    let mut processes = [Process {
        activity: Activity::Idle,
        begun: 0,
        steps: 0,
        helps: 0,
    }; 8];
    let mut room = answers.as_chunks_mut().0.iter_mut();
    let mut ran = Ran::default();
    for &record in records {
        let Some((k, act)) = decode(record, p) else {
            ran.refusal = 5;
            break;
        };
        let process = &mut processes[k];
        let leaf = p + k as u32;
        match (act, &mut process.activity) {
            (Act::Begin(_), _) if process.begun == l => {
                ran.refusal = 8;
                break;
            }
            (Act::Begin(_), Activity::Busy { .. }) => {
                ran.refusal = 6;
                break;
            }
            (Act::Step, Activity::Idle) => {
                ran.refusal = 7;
                break;
            }
            (Act::Begin(operation), Activity::Idle) => {
                process.begun += 1;
                process.steps = 0;
                process.helps = 0;
                process.activity = Activity::Busy {
                    operation,
                    step: Step::A,
                };
            }
            (
                Act::Step,
                Activity::Busy {
                    operation,
                    step: Step::Q,
                },
            ) => {
                let Some(answer) = room.next() else {
                    ran.refusal = 9;
                    break;
                };
                let operation = *operation;
                process.steps += 1;
                *answer = memory.answer(k as u8, process, operation);
                process.activity = Activity::Idle;
                ran.answers += 1;
            }
            (Act::Step, Activity::Busy { operation, step }) => {
                let helped = memory.step(leaf, *operation, step, ran.taken as u32 + 1);
                process.steps += 1;
                process.helps += u8::from(helped);
            }
        }
        ran.taken += 1;
    }
    ran
}
