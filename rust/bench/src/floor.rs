//! Run in unchecked Rust, the floor that the others are compared with. The registers of all steps
//! lie flat in one cache line a process, each step changes only its own, and no index is checked.

use crate::layout::{first_blocks, BLOCK_WORDS, LEFT, NUMBER, PUTS, RIGHT, SIZE, SUPER, TAKES};
use crate::ran::Ran;

/// What a process does next. `IDLE` is 0 so that one comparison finds it.
const IDLE: u32 = 0;
const A: u32 = 1;
const V1: u32 = 2;
const V2: u32 = 3;
const V3: u32 = 4;
const R1: u32 = 5;
const R2: u32 = 6;
const R3: u32 = 7;
const R4: u32 = 8;
const R5: u32 = 9;
const C1: u32 = 10;
const C2: u32 = 11;
const C3L: u32 = 12;
const C3R: u32 = 13;
const C3N: u32 = 14;
const C4: u32 = 15;
const Q: u32 = 16;

#[derive(Clone, Copy, Default)]
#[repr(C, align(64))]
struct Process {
    next: u32,
    /// The step after an advance; R1 stands for the second refresh.
    after: u32,
    /// The refresh: its node, whether it is the second, and the head that R1 read.
    node: u32,
    second: u32,
    head: u32,
    /// The advance.
    below: u32,
    place: u32,
    /// What V1, R2, R4 and C1 read.
    read: u32,
    /// The block that C4 writes, with `read` as its left end. Its totals are from C3L and C3R.
    totals: u64,
    right: u32,
    size: u32,
    /// 1 for a put, 2 for a take.
    kind: u32,
    value: u32,
    begun: u32,
    /// Own steps and helps of the operation, each below 256; as two words they would not fit in the
    /// cache line.
    steps: u16,
    helps: u16,
}

#[derive(Clone, Copy)]
struct Memory {
    table: *mut u32,
    heads: *mut u32,
    /// By node number, the first word of the node's part.
    first: *const u32,
}

/// Puts and takes as one number, which x86-64 reads at once: puts in the low half. Totals are too
/// small for a sum to carry into the other half.
#[inline(always)]
unsafe fn totals_of(block: *const u32) -> u64 {
    block.cast::<u64>().read_unaligned()
}

impl Memory {
    #[inline(always)]
    unsafe fn head(self, node: u32) -> *mut u32 {
        self.heads.add(node as usize)
    }

    #[inline(always)]
    unsafe fn block(self, node: u32, place: u32) -> *mut u32 {
        let first = *self.first.add(node as usize);
        self.table
            .add(first as usize + BLOCK_WORDS * place as usize)
    }

    #[inline(always)]
    unsafe fn totals(self, node: u32, place: u32) -> u64 {
        totals_of(self.block(node, place))
    }

    #[inline(always)]
    unsafe fn word(self, node: u32, place: u32, word: usize) -> u32 {
        *self.block(node, place).add(word)
    }

    /// The first place from `low + 1` to `high` whose word reaches `wanted`.
    #[inline(always)]
    unsafe fn search(
        self,
        node: u32,
        word: usize,
        mut low: u32,
        mut high: u32,
        wanted: u32,
    ) -> u32 {
        while low + 1 < high {
            let middle = (low + high) / 2;
            if self.word(node, middle, word) < wanted {
                low = middle;
            } else {
                high = middle;
            }
        }
        high
    }

    /// The parent's place that holds this place: super or the one after it, as a rule.
    #[inline(always)]
    unsafe fn up(self, node: u32, place: u32) -> u32 {
        let (parent, word) = (node / 2, LEFT + (node % 2) as usize);
        let last = *self.head(parent) - 1;
        let hint = self.word(node, place, SUPER);
        for x in [hint, hint + 1] {
            if x >= 1
                && x <= last
                && self.word(parent, x - 1, word) < place
                && place <= self.word(parent, x, word)
            {
                return x;
            }
        }
        self.search(parent, word, 0, last, place)
    }

    /// The root block of a leaf's place.
    unsafe fn root_block(self, mut node: u32, mut place: u32) -> u32 {
        while node > 1 {
            place = self.up(node, place);
            node /= 2;
        }
        place
    }

    /// The root block of a leaf's place, and its rank among the takes there.
    unsafe fn root_block_and_rank(self, mut node: u32, mut place: u32) -> (u32, u32) {
        let mut rank = 1;
        while node > 1 {
            let up = self.up(node, place);
            let block = self.block(node / 2, up);
            let before = block.sub(BLOCK_WORDS);
            let word = LEFT + (node % 2) as usize;
            rank += self.word(node, place - 1, TAKES) - self.word(node, *before.add(word), TAKES);
            if word == RIGHT {
                rank += self.word(node - 1, *block.add(LEFT), TAKES)
                    - self.word(node - 1, *before.add(LEFT), TAKES);
            }
            place = up;
            node /= 2;
        }
        (place, rank)
    }

    /// The value of put number `number`; `most` is a root block that reaches it.
    unsafe fn put_value(self, p: u32, number: u32, most: u32) -> u32 {
        let mut node = 1;
        let mut place = self.search(1, PUTS, 0, most, number);
        let mut rank = number - self.word(1, place - 1, PUTS);
        while node < p {
            let block = self.block(node, place);
            let before = block.sub(BLOCK_WORDS);
            let mut child = 2 * node;
            let (mut low, mut high) = (*before.add(LEFT), *block.add(LEFT));
            let mut base = self.word(child, low, PUTS);
            let in_left = self.word(child, high, PUTS) - base;
            if rank > in_left {
                rank -= in_left;
                child += 1;
                (low, high) = (*before.add(RIGHT), *block.add(RIGHT));
                base = self.word(child, low, PUTS);
            }
            place = self.search(child, PUTS, low, high, base + rank);
            rank -= self.word(child, place - 1, PUTS) - base;
            node = child;
        }
        self.word(node, place, LEFT)
    }

    /// Q: writes the answer.
    #[inline(never)]
    unsafe fn answer(self, p: u32, k: u32, q: &Process, answer: *mut u8) {
        let (leaf, serial) = (p + k, q.begun);
        let (mut kind, mut value) = (1, 0);
        let b;
        if q.kind == 1 {
            b = self.root_block(leaf, serial);
        } else {
            let (found, rank) = self.root_block_and_rank(leaf, serial);
            b = found;
            let block = self.block(1, b);
            let (puts, size) = (*block.sub(BLOCK_WORDS), *block.sub(BLOCK_WORDS).add(SIZE));
            kind = 3;
            if size + (*block - puts) >= rank {
                kind = 2;
                value = self.put_value(p, rank + puts - size, b);
            }
        }
        let words = answer.cast::<u32>();
        // Bytes 2 and 3.
        let counts = u32::from(q.steps) | u32::from(q.helps) << 8;
        words.write_unaligned((k | kind << 8 | counts << 16).to_le());
        words.add(1).write_unaligned(value.to_le());
        words.add(2).write_unaligned(serial.to_le());
        words.add(3).write_unaligned(b.to_le());
    }
}

impl Process {
    /// Goes on to refresh the parent of the node, or to Q.
    #[inline(always)]
    fn go_up(&mut self) {
        self.next = if self.node == 1 { Q } else { R1 };
        self.node /= 2;
        self.second = 0;
    }

    #[inline(always)]
    fn advance(&mut self, below: u32, place: u32, after: u32) {
        self.below = below;
        self.place = place;
        self.after = after;
        self.next = if below == 1 { V3 } else { V1 };
    }

    /// R3 and R5.
    #[inline(always)]
    unsafe fn help(&mut self, memory: Memory, child: u32, after: u32) {
        let block = memory.block(child, self.read);
        let end = memory
            .table
            .add(*memory.first.add(child as usize + 1) as usize);
        if block < end && totals_of(block) != 0 {
            self.advance(child, self.read, after);
        } else {
            self.next = after;
        }
    }

    /// One step that is not Q, by the record with this number.
    #[inline(always)]
    unsafe fn step(&mut self, memory: Memory, leaf: u32, number: u32) {
        match self.next {
            A => {
                let head = *memory.head(leaf);
                let block = memory.block(leaf, head);
                let before = block.sub(BLOCK_WORDS);
                *block = *before + (self.kind == 1) as u32;
                *block.add(TAKES) = *before.add(TAKES) + (self.kind == 2) as u32;
                *block.add(LEFT) = self.value;
                *block.add(NUMBER) = number;
                self.node = leaf;
                self.advance(leaf, head, Q);
            }
            V1 => {
                self.read = *memory.head(self.below / 2);
                self.next = V2;
            }
            V2 => {
                let block = memory.block(self.below, self.place);
                if *block.add(SUPER) == 0 {
                    *block.add(SUPER) = self.read;
                }
                self.next = V3;
            }
            V3 => {
                let head = memory.head(self.below);
                if *head == self.place {
                    *head += 1;
                    // A child of the refreshed node; else it is the own leaf or that node.
                    self.helps += (self.below != self.node) as u16;
                }
                // Q stands for the way up.
                match self.after {
                    Q => self.go_up(),
                    after => self.next = after,
                }
            }
            R1 => {
                self.head = *memory.head(self.node);
                self.next = R2;
            }
            R2 => {
                self.read = *memory.head(2 * self.node);
                self.next = R3;
            }
            R3 => self.help(memory, 2 * self.node, R4),
            R4 => {
                self.read = *memory.head(2 * self.node + 1);
                self.next = R5;
            }
            R5 => self.help(memory, 2 * self.node + 1, C1),
            C1 => {
                self.read = *memory.head(2 * self.node) - 1;
                self.next = C2;
            }
            C2 => {
                self.right = *memory.head(2 * self.node + 1) - 1;
                self.next = C3L;
            }
            C3L => {
                self.totals = memory.totals(2 * self.node, self.read);
                self.next = C3R;
            }
            C3R => {
                self.totals += memory.totals(2 * self.node + 1, self.right);
                self.next = C3N;
            }
            C3N => {
                let old = memory.block(self.node, self.head - 1);
                let new = self.totals - totals_of(old);
                if new == 0 {
                    self.go_up();
                } else {
                    self.size = 0;
                    if self.node == 1 {
                        let held = *old.add(SIZE) + new as u32;
                        self.size = held.saturating_sub((new >> 32) as u32);
                    }
                    self.next = C4;
                }
            }
            C4 => {
                let block = memory.block(self.node, self.head);
                let mut after = Q;
                if totals_of(block) == 0 {
                    block.cast::<u64>().write_unaligned(self.totals);
                    *block.add(LEFT) = self.read;
                    *block.add(RIGHT) = self.right;
                    *block.add(SIZE) = self.size;
                    *block.add(NUMBER) = number;
                } else if self.second == 0 {
                    self.second = 1;
                    after = R1;
                }
                self.advance(self.node, self.head, after);
            }
            _ => std::hint::unreachable_unchecked(),
        }
    }
}

pub fn run(p: u32, l: u32, records: &[u8], table: &mut [u32], answers: &mut [u8]) -> Ran {
    let first = match first_blocks(p, l) {
        Ok(first) => first.map(|blocks| (BLOCK_WORDS * blocks) as u32),
        Err(refusal) => return Ran::refused(refusal),
    };
    if table.len() < first[16] as usize {
        return Ran::refused(3);
    }
    if !records.len().is_multiple_of(8) {
        return Ran::refused(4);
    }
    table[..first[16] as usize].fill(0);
    // SAFETY: the table has the words of every node, process numbers are tested to be below p, and
    // the rules keep heads within a node's places or one past them, where only R3 and R5 look.
    unsafe { play(p, l, records, table, answers, &first) }
}

unsafe fn play(
    p: u32,
    l: u32,
    records: &[u8],
    table: &mut [u32],
    answers: &mut [u8],
    first: &[u32; 17],
) -> Ran {
    let mut heads = [1; 16];
    let memory = Memory {
        table: table.as_mut_ptr(),
        heads: heads.as_mut_ptr(),
        first: first.as_ptr(),
    };
    let mut processes = [Process::default(); 8];
    let processes = processes.as_mut_ptr();
    let room = answers.len() / 16;
    let mut written = 0;
    let count = records.len() / 8;
    let mut refusal = 0;
    let mut i = 0;
    while i < count {
        let record = u64::from_le(records.as_ptr().cast::<u64>().add(i).read_unaligned());
        if record < u64::from(p) {
            let q = &mut *processes.add(record as usize);
            if q.next == Q {
                if written == room {
                    refusal = 9;
                    break;
                }
                q.steps += 1;
                memory.answer(p, record as u32, q, answers.as_mut_ptr().add(16 * written));
                written += 1;
                q.next = IDLE;
            } else if q.next == IDLE {
                refusal = 7;
                break;
            } else {
                q.steps += 1;
                q.step(memory, p + record as u32, i as u32 + 1);
            }
        } else {
            let (k, kind) = (record as u8, (record >> 8) as u8);
            let value = (record >> 32) as u32;
            let zeros = (record >> 16) as u16;
            if u32::from(k) >= p || zeros != 0 || (kind != 1 && (kind != 2 || value != 0)) {
                refusal = 5;
                break;
            }
            let q = &mut *processes.add(k as usize);
            if q.begun == l {
                refusal = 8;
                break;
            }
            if q.next != IDLE {
                refusal = 6;
                break;
            }
            q.begun += 1;
            q.steps = 0;
            q.helps = 0;
            q.kind = u32::from(kind);
            q.value = value;
            q.next = A;
        }
        i += 1;
    }
    Ran {
        refusal,
        taken: i as u64,
        answers: written as u64,
    }
}
