//! Helpers of the tests: buffers with a pattern, calls on them, mixed and hostile lists, and what runs
//! of them leave.

use reference::block_numbers::At;
use reference::check::{check_log, CheckResult};
use reference::demand3::step_limit;
use reference::desk::{deliver, DeskResult, TERM_BYTES};
use reference::desk_calls::DeskCall;
use reference::growth::Past;
use reference::known_runs::known_runs;
use reference::list::{list_order, ListResult};
use reference::lists::List;
use reference::machine::Machine;
use reference::process::{StepName, STEP_NAMES};
use reference::run::{run, RunResult};
use reference::schedules::{schedule, Ending, Pace, Plan};
use reference::superblocks::{all_subblocks, supers_near, Subblock};
use reference::tree::{Block, Shape, Tree, BLOCK_WORDS, ROOT};
use std::fmt::Debug;
use std::ops::Range;

/// Words of a block by the paper, for tests that find words apart from the version's layout.
pub const PAPER_BLOCK_WORDS: usize = 7;

/// Words and bytes lent past those needed; they must keep their content.
pub const SPARE: usize = 21;

pub fn needed(p: u32, l: u32) -> usize {
    Shape::new(p, l).expect("a proper p and L").words_needed()
}

/// No two neighbours alike, so that a moved word is seen.
pub fn pattern_words(count: usize) -> Vec<u32> {
    (0..count as u32).map(|i| 0xa5a5_0000 + i).collect()
}

pub fn pattern_bytes(count: usize) -> Vec<u8> {
    (0..count).map(|i| 1 + (i % 251) as u8).collect()
}

/// A result with the buffers after the call.
#[derive(Clone, PartialEq, Eq, Debug)]
pub struct After<R> {
    pub result: R,
    pub table: Vec<u32>,
    pub bytes: Vec<u8>,
}

/// A call on a table and bytes with the pattern.
fn on_pattern<R>(
    words: usize,
    bytes: usize,
    call: impl FnOnce(&mut [u32], &mut [u8]) -> R,
) -> After<R> {
    let (mut table, mut bytes) = (pattern_words(words), pattern_bytes(bytes));
    let result = call(&mut table, &mut bytes);
    After {
        result,
        table,
        bytes,
    }
}

pub fn run_with(p: u32, l: u32, records: &[u8], words: usize, bytes: usize) -> After<RunResult> {
    on_pattern(words, bytes, |table, answers| {
        run(p, l, records, table, answers)
    })
}

pub fn list_with(p: u32, l: u32, records: &[u8], words: usize, bytes: usize) -> After<ListResult> {
    on_pattern(words, bytes, |table, output| {
        list_order(p, l, records, table, output)
    })
}

pub fn check_with(p: u32, l: u32, records: &[u8], log: &[u8], words: usize) -> After<CheckResult> {
    on_pattern(words, 0, |table, _| check_log(p, l, records, log, table))
}

pub fn desk_with(call: &DeskCall, words: usize, bytes: usize) -> After<DeskResult> {
    let (p, l, licensed) = (call.p, call.l, call.licensed);
    on_pattern(words, bytes, |table, output| {
        deliver(p, l, licensed, &call.records, table, output)
    })
}

/// The desk with room for every term and some more, or some room where p or L is turned down.
pub fn deliver_amply(call: &DeskCall) -> After<DeskResult> {
    let words = Shape::new(call.p, call.l).map_or(0, Shape::words_needed);
    let terms = call.records.len() / 8;
    desk_with(call, words + SPARE, TERM_BYTES * terms + SPARE)
}

/// Run with room for everything and some more.
pub fn run_amply(p: u32, l: u32, records: &[u8]) -> After<RunResult> {
    let bytes = 16 * (p * l) as usize + SPARE;
    run_with(p, l, records, needed(p, l) + SPARE, bytes)
}

/// The answer bytes that a run wrote.
pub fn written(after: &After<RunResult>) -> &[u8] {
    &after.bytes[..16 * after.result.answers as usize]
}

/// The order list of a run that Run takes whole, with ample output.
pub fn order_of(p: u32, l: u32, list: &[u8]) -> Vec<u8> {
    let after = list_with(p, l, list, needed(p, l), 8 * (p * l) as usize + SPARE);
    assert_eq!(after.result.refusal, 0);
    after.bytes[..after.result.length as usize].to_vec()
}

/// The past after a list that runs without refusal.
pub fn past(p: u32, l: u32, list: &[u8]) -> Past {
    let ran = run_amply(p, l, list);
    assert_eq!(ran.result.refusal, 0);
    Past::left(Shape::new(p, l).unwrap(), &ran.table, &order_of(p, l, list))
}

/// The needed words that a machine stands for.
pub fn table_of(machine: &Machine) -> Vec<u32> {
    machine.memory.tree.words()
}

/// Node and place of every block.
pub fn places(shape: Shape) -> impl Iterator<Item = (u32, u32)> {
    let nodes = ROOT..=shape.last_node();
    nodes.flat_map(move |node| (0..=shape.last_place(node)).map(move |place| (node, place)))
}

/// The blocks by node and place, without their numbers.
pub fn unnumbered(tree: &Tree) -> impl Iterator<Item = Block> + '_ {
    places(tree.shape()).map(|(node, place)| Block {
        number: 0,
        ..tree.block(node, place)
    })
}

/// Where the number stands among the words of a block.
pub const NUMBER_WORD: usize = 6;

/// The words of a place that is absent, and of block 0.
pub const ZERO: [u32; BLOCK_WORDS] = [0; BLOCK_WORDS];

/// The words of a node's block.
pub fn block_words(shape: Shape, table: &mut [u32], node: u32, place: u32) -> &mut [u32] {
    let start = shape.node_start(node) + BLOCK_WORDS * place as usize;
    &mut table[start..start + BLOCK_WORDS]
}

/// The expected buffers: the start of one, then the pattern.
pub fn then_pattern_words(start: &[u32], count: usize) -> Vec<u32> {
    [start, &pattern_words(count)[start.len()..]].concat()
}

pub fn then_pattern_bytes(start: &[u8], count: usize) -> Vec<u8> {
    [start, &pattern_bytes(count)[start.len()..]].concat()
}

pub fn block_at(node: u32, place: u32) -> At {
    At { node, place }
}

pub fn subblock_at(node: u32, place: u32, above: u32, super_word: u32) -> Subblock {
    Subblock {
        node,
        place,
        above,
        super_word,
    }
}

/// Superblocks met at their subblock's super and one place later, by height of the subblock.
#[derive(Default, Debug)]
pub struct Met {
    pub at_super: [u64; 3],
    pub one_later: [u64; 3],
}

impl Met {
    /// Checks that every superblock in the table is near, and counts them.
    pub fn assert_near(&mut self, shape: Shape, table: &[u32], told: impl Debug) {
        assert_eq!(supers_near(shape, table), Ok(()), "{told:?}");
        for block in all_subblocks(shape, table) {
            let height = shape.height(block.node) as usize;
            if block.above == block.super_word {
                self.at_super[height] += 1;
            } else {
                self.one_later[height] += 1;
            }
        }
    }

    /// The same of what a run left.
    pub fn assert_left(&mut self, left: Left) {
        self.assert_near(left.shape, left.table, left.told);
    }

    /// Both cases came at each of these heights.
    pub fn assert_both(&self, heights: Range<usize>) {
        for height in heights {
            let met = (self.at_super[height], self.one_later[height]);
            assert!(met.0 > 0 && met.1 > 0, "height {height} of {self:?}");
        }
    }
}

/// Two puts and two takes of p = 2, 18 records each, one after the other: root blocks 1 to 4.
pub fn one_by_one() -> Vec<u8> {
    let puts = List::new().put(0, 5).steps(0, 17).put(1, 6).steps(1, 17);
    puts.take(0).steps(0, 17).take(1).steps(1, 17).bytes()
}

/// A mixed list in which all operations finish.
pub fn mixed_list(p: u32, l: u32, seed: u64) -> Vec<u8> {
    schedule(&Plan::new(p, l, Pace::Bursts(9), seed))
}

const LIMITS: [u32; 7] = [1, 2, 3, 5, 11, 24, 50];

/// Plans for every p, L and mix, with lists that end whole and cut lists.
pub fn every_shape(pace: Pace, seeds: u64) -> Vec<Plan> {
    let mut plans = Vec::new();
    for p in [2, 4, 8] {
        for l in LIMITS {
            for puts_of_8 in [1, 4, 7] {
                for seed in 0..seeds {
                    let cut = 1 + (seed as usize * 131) % (20 * (p * l) as usize);
                    let ending = if seed % 2 == 0 {
                        Ending::AllFinish
                    } else {
                        Ending::Cut(cut)
                    };
                    let plan = Plan::new(p, l, pace, seed).puts_of_8(puts_of_8);
                    plans.push(plan.ending(ending));
                }
            }
        }
    }
    plans
}

/// Answer bytes for all operations.
pub fn ample(plan: &Plan) -> usize {
    16 * (plan.p * plan.l) as usize
}

/// Ends that Run refuses whatever the list before them: an ill-formed record, two begins in
/// turn, and more steps than one operation has.
fn refused_ends(plan: &Plan) -> [Vec<u8>; 3] {
    let most = step_limit(Shape::new(plan.p, plan.l).unwrap()) as usize;
    [
        List::new().steps(plan.p, 1).bytes(),
        List::new().take(0).take(0).bytes(),
        List::new().steps(0, most + 1).bytes(),
    ]
}

/// What Run took of a list and left.
pub struct Left<'a> {
    pub shape: Shape,
    /// The records taken.
    pub taken: &'a [u8],
    pub table: &'a [u32],
    /// What the list is of.
    pub told: &'a dyn Debug,
}

impl<'a> Left<'a> {
    fn of(
        shape: Shape,
        list: &'a [u8],
        after: &'a After<RunResult>,
        told: &'a dyn Debug,
    ) -> Left<'a> {
        Left {
            shape,
            taken: &list[..8 * after.result.taken as usize],
            table: &after.table,
            told,
        }
    }
}

/// Gives a checker what Run leaves of a list, with so many answer bytes; returns the refusal that
/// ended it.
pub fn check_list(plan: &Plan, list: &[u8], bytes: usize, check: &mut impl FnMut(Left)) -> u32 {
    let shape = Shape::new(plan.p, plan.l).unwrap();
    let after = run_with(plan.p, plan.l, list, shape.words_needed(), bytes);
    check(Left::of(shape, list, &after, plan));
    after.result.refusal
}

/// The same of the plans' lists, each played whole.
pub fn check_plans(plans: &[Plan], mut check: impl FnMut(Left)) {
    for plan in plans {
        let refusal = check_list(plan, &schedule(plan), ample(plan), &mut check);
        assert_eq!(refusal, 0, "{plan:?}");
    }
}

/// The same of the known runs, but for the one whose call is turned down: it leaves the words that it
/// was lent.
pub fn check_known_runs(mut check: impl FnMut(Left)) {
    for known in known_runs() {
        let (p, l, list) = (known.p, known.l, &known.list);
        let after = run_with(p, l, list, known.words, known.bytes);
        let shape = Shape::new(p, l).unwrap();
        if after.result.refusal != 3 {
            check(Left::of(shape, list, &after, &known.name));
        }
    }
}

/// The same of lists that end with each refusal of a record.
pub fn check_refused(mut check: impl FnMut(Left)) {
    let mut seen = [0; 10];
    for plan in every_shape(Pace::Bursts(9), 2) {
        let list = schedule(&plan);
        for end in refused_ends(&plan) {
            // What comes after the refused record plays no part.
            let list = [&list[..], &end, &list].concat();
            let refusal = check_list(&plan, &list, ample(&plan), &mut check);
            assert_ne!(refusal, 0, "{plan:?}");
            seen[refusal as usize] += 1;
        }
        let fewer = ample(&plan) / 2;
        seen[check_list(&plan, &list, fewer, &mut check) as usize] += 1;
    }
    assert!(seen[5..].iter().all(|&count| count > 0), "{seen:?}");
}

/// Plans that stop at each step, for every p.
pub fn every_stall() -> Vec<Plan> {
    let of_p = |p| STEP_NAMES.into_iter().flat_map(move |step| stalls(p, step));
    [2, 4, 8].into_iter().flat_map(of_p).collect()
}

/// Plans that stop at one named step, before and after it, with each ending.
pub fn stalls(p: u32, step: StepName) -> Vec<Plan> {
    let mut plans = Vec::new();
    for after in [false, true] {
        for l in [1, 2, 3, 7, 20] {
            for seed in 0..12 {
                let ending = match seed % 3 {
                    0 => Ending::AllFinish,
                    1 => Ending::Cut(30 * (1 + seed as usize)),
                    _ => Ending::Abandoned,
                };
                let pace = Pace::Stalls { step, after };
                let puts_of_8 = [1, 4, 7][seed as usize / 3 % 3];
                let plan = Plan::new(p, l, pace, seed).puts_of_8(puts_of_8);
                plans.push(plan.ending(ending));
            }
        }
    }
    plans
}
