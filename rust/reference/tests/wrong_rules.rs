//! Wrong step rules: the checkers of superblocks, of growth and of block numbers see what they leave.
//! Wrong rules of counting helps: the checker of demand 3 sees what they write.

use crate::support::{block_at, run_amply, subblock_at, table_of};
use reference::block_numbers::{numbers_above, numbers_hold, numbers_rise, Misnumbered};
use reference::demand3::{check, Violation};
use reference::growth::{grows, Departure, Past};
use reference::help_lists::{help_lists, HelpList};
use reference::known_runs::m6;
use reference::lists::List;
use reference::machine::Machine;
use reference::memory::Memory;
use reference::process::{Activity, Step, Then};
use reference::records::{numbered, Act, Answer, StepRecord};
use reference::run::play_record;
use reference::superblocks::supers_near;
use reference::tree::{Block, Shape, ROOT};

/// Makes a wrong rule of a right one, by what the step meets in the memory or its registers.
type Spoil = fn(&mut Memory, Step) -> Step;

const RIGHT: Spoil = |_, step| step;

/// R3 looks where no block ever is.
const NO_HELP_ON_THE_LEFT: Spoil = |_, mut step| {
    if let Step::R3 { c, .. } = &mut step {
        *c = u32::MAX;
    }
    step
};

/// R5 looks where no block ever is.
const NO_HELP_ON_THE_RIGHT: Spoil = |_, mut step| {
    if let Step::R5 { c, .. } = &mut step {
        *c = u32::MAX;
    }
    step
};

/// V2 has the node's own head in the place of its parent's.
const OWN_HEAD: Spoil = |memory, mut step| {
    if let Step::V2 {
        advance,
        parent_head,
    } = &mut step
    {
        *parent_head = memory.head(advance.node);
    }
    step
};

/// V2 sets super even if it is set.
const SUPER_SET_AGAIN: Spoil = |memory, step| {
    if let Step::V2 { advance, .. } = step {
        let block = Block {
            superblock: 0,
            ..memory.tree.block(advance.node, advance.place)
        };
        memory.tree.write(advance.node, advance.place, block);
    }
    step
};

/// C4 writes even where a block is present.
const BLOCK_WRITTEN_OVER: Spoil = |memory, step| {
    if let Step::C4 { refresh, h, .. } = step {
        memory.tree.write(refresh.node, h, Block::default());
    }
    step
};

/// V2 leaves no number.
const NUMBER_LOST: Spoil = |memory, step| {
    if let Step::V2 { advance, .. } = step {
        let block = Block {
            number: 0,
            ..memory.tree.block(advance.node, advance.place)
        };
        memory.tree.write(advance.node, advance.place, block);
    }
    step
};

/// What can be counted up to a record, that record included.
#[derive(Clone, Copy, Default)]
struct Counted {
    records: u32,
    step_records: u32,
    /// Records of its process.
    own_records: u32,
    /// Steps of its process since the last begin of it.
    own_steps: u32,
    /// All records up to the one before it of its process.
    own_before: u32,
}

/// A rule of numbering: what a block is written with.
type Numbering = fn(Counted) -> u32;

const RIGHT_NUMBER: Numbering = |counted| counted.records;
const FROM_0: Numbering = |counted| counted.records - 1;
const BEGINS_LEFT_OUT: Numbering = |counted| counted.step_records;
/// The record before is the begin of an A, and the C3N of a C4.
const RECORD_BEFORE: Numbering = |counted| counted.own_before;
const OWN_RECORDS: Numbering = |counted| counted.own_records;
const OWN_STEPS: Numbering = |counted| counted.own_steps;

/// What a list leaves that is played by such a rule.
fn table_by(spoil: Spoil, shape: Shape, list: List) -> Vec<u32> {
    table_with(spoil, RIGHT_NUMBER, shape, list)
}

/// The same with blocks numbered by such a rule.
fn table_with(spoil: Spoil, numbering: Numbering, shape: Shape, list: List) -> Vec<u32> {
    let mut machine = Machine::start(shape);
    let mut counted = [Counted::default(); 8];
    let mut step_records = 0;
    for (number, bytes) in numbered(&list.bytes()) {
        let record = StepRecord::read(bytes, shape.p()).unwrap();
        let is_step = record.act == Act::Step;
        step_records += u32::from(is_step);
        let own = &mut counted[record.process as usize];
        *own = Counted {
            records: number,
            step_records,
            own_records: own.own_records + 1,
            own_steps: if is_step { own.own_steps + 1 } else { 0 },
            own_before: own.records,
        };
        let process = &mut machine.processes[record.process as usize];
        if let Activity::Busy { step, .. } = &mut process.activity {
            *step = spoil(&mut machine.memory, *step);
        }
        play_record(&mut machine, numbering(*own), record);
    }
    table_of(&machine)
}

/// A process that stops after its V2 while the other makes two root blocks.
fn stopped(slow: u32, other: u32) -> List {
    let list = List::new().put(slow, 7).steps(slow, 3);
    let list = list.put(other, 5).steps(other, 17);
    list.put(other, 6).steps(other, 17).steps(slow, 14)
}

#[test]
fn without_help_the_superblock_comes_two_later() {
    let shape = Shape::new(2, 2).unwrap();
    let right = table_by(NO_HELP_ON_THE_RIGHT, shape, stopped(1, 0));
    assert_eq!(supers_near(shape, &right), Err(subblock_at(3, 1, 3, 1)));
    let left = table_by(NO_HELP_ON_THE_LEFT, shape, stopped(0, 1));
    assert_eq!(supers_near(shape, &left), Err(subblock_at(2, 1, 3, 1)));
}

#[test]
fn with_its_own_head_as_super_the_superblock_comes_later() {
    let shape = Shape::new(2, 2).unwrap();
    let two_before = List::new().put(0, 5).steps(0, 17).put(0, 6).steps(0, 17);
    let list = two_before.put(1, 7).steps(1, 17);
    let near = |spoil| supers_near(shape, &table_by(spoil, shape, list.clone()));
    assert_eq!(near(RIGHT), Ok(()));
    assert_eq!(near(OWN_HEAD), Err(subblock_at(3, 1, 3, 1)));
}

#[test]
fn with_super_set_again_the_superblock_comes_before_it() {
    let shape = Shape::new(2, 1).unwrap();
    let near = |spoil| supers_near(shape, &table_by(spoil, shape, m6(0, 1)));
    assert_eq!(near(RIGHT), Ok(()));
    assert_eq!(near(SUPER_SET_AGAIN), Err(subblock_at(2, 1, 1, 2)));
}

/// Process 1 comes to C4 with a block of its own put alone; 0 writes one with both.
#[test]
fn with_a_block_written_over_the_past_changes() {
    let shape = Shape::new(2, 1).unwrap();
    let past = |spoil, last_steps| {
        let list = List::new().put(1, 7).steps(1, 14).put(0, 5).steps(0, 17);
        let table = table_by(spoil, shape, list.steps(1, last_steps));
        Past::left(shape, &table, &[])
    };
    let goes_on = |spoil| grows(&past(spoil, 0), &past(spoil, 1));
    assert_eq!(past(RIGHT, 0).order.len(), 2);
    assert_eq!(goes_on(RIGHT), Ok(()));
    let entry = 0;
    assert_eq!(goes_on(BLOCK_WRITTEN_OVER), Err(Departure::Order { entry }));
}

/// Numbers that rise and stand above those of subblocks, but are of other records.
#[test]
fn numbered_otherwise_a_block_has_another_record() {
    let shape = Shape::new(2, 1).unwrap();
    let list = m6(0, 1);
    let table = |numbering| table_with(RIGHT, numbering, shape, list.clone());
    let records = list.clone().bytes();
    assert_eq!(numbers_hold(shape, &records, &table(RIGHT_NUMBER)), Ok(()));
    for numbering in [FROM_0, BEGINS_LEFT_OUT, RECORD_BEFORE, OWN_RECORDS] {
        let table = table(numbering);
        assert_eq!(numbers_rise(shape, &table), Ok(()));
        assert_eq!(numbers_above(shape, &table), Ok(()));
        let (block, record) = (block_at(ROOT, 1), Some(21));
        let wrong = Err(Misnumbered::NotWritten { block, record });
        assert_eq!(numbers_hold(shape, &records, &table), wrong);
    }
}

/// Process 0 has had 20 records when it writes a block that process 1, with its 19th, carries up.
#[test]
fn numbered_by_process_a_block_is_not_above_its_subblock() {
    let shape = Shape::new(2, 2).unwrap();
    let begun = List::new().put(0, 5).steps(0, 17).put(0, 6).steps(0, 1);
    let list = begun.put(1, 7).steps(1, 20);
    let table = |numbering| table_with(RIGHT, numbering, shape, list.clone());
    assert_eq!(numbers_above(shape, &table(RIGHT_NUMBER)), Ok(()));
    let (block, subblock) = (block_at(ROOT, 2), block_at(2, 2));
    let wrong = Err(Misnumbered::NotAbove { block, subblock });
    assert_eq!(numbers_above(shape, &table(OWN_RECORDS)), wrong);
    let wrong = Err(Misnumbered::NotRising(block_at(2, 2)));
    assert_eq!(numbers_rise(shape, &table(OWN_STEPS)), wrong);
}

#[test]
fn a_number_that_is_lost_or_another_records() {
    let shape = Shape::new(2, 1).unwrap();
    let lost = table_by(NUMBER_LOST, shape, m6(0, 1));
    let wrong = Err(Misnumbered::NotRising(block_at(2, 1)));
    assert_eq!(numbers_rise(shape, &lost), wrong);
    // Process 1 comes to C4 with record 15, process 0 writes the block with record 31.
    let list = List::new().put(1, 7).steps(1, 14).put(0, 5).steps(0, 17);
    let list = list.steps(1, 1);
    let over = table_by(BLOCK_WRITTEN_OVER, shape, list.clone());
    let (block, record) = (block_at(ROOT, 1), Some(31));
    let wrong = Err(Misnumbered::NotWritten { block, record });
    assert_eq!(numbers_hold(shape, &list.bytes(), &over), wrong);
}

/// A rule of counting helps.
#[derive(Clone, Copy)]
struct Counting {
    /// Whether an advance counts, by what follows it and whether its V3 moves the head.
    counts: fn(Then, bool) -> bool,
    /// Whether a begin sets the count back.
    set_back: bool,
}

const RIGHT_COUNT: Counting = Counting {
    counts: |then, moves| moves && then.of_child(),
    set_back: true,
};

/// A help counts although another has moved the head.
const MOVED_BY_ANOTHER: Counting = Counting {
    counts: |then, _| then.of_child(),
    ..RIGHT_COUNT
};

/// The advance of the own leaf counts too.
const OWN_LEAF: Counting = Counting {
    counts: |then, moves| moves && (then.of_child() || then == Then::RefreshParent),
    ..RIGHT_COUNT
};

/// The advance of the refreshed node counts too.
const REFRESHED_NODE: Counting = Counting {
    counts: |then, moves| moves && then != Then::RefreshParent,
    ..RIGHT_COUNT
};

/// The advance of the refreshed node counts after a refresh that failed.
const FAILED_REFRESH: Counting = Counting {
    counts: |then, moves| {
        let failed = matches!(then, Then::EndRefresh { success: false, .. });
        moves && (then.of_child() || failed)
    },
    ..RIGHT_COUNT
};

const LEFT_ALONE: Counting = Counting {
    counts: |then, moves| moves && matches!(then, Then::R4 { .. }),
    ..RIGHT_COUNT
};

const RIGHT_ALONE: Counting = Counting {
    counts: |then, moves| moves && matches!(then, Then::C1 { .. }),
    ..RIGHT_COUNT
};

const NOT_SET_BACK: Counting = Counting {
    set_back: false,
    ..RIGHT_COUNT
};

/// The log of a list whose helps are counted by such a rule.
fn log_by(counting: Counting, shape: Shape, list: &[u8]) -> Vec<u8> {
    let mut machine = Machine::start(shape);
    let mut helps = [0; 8];
    let mut log = Vec::new();
    for (number, bytes) in numbered(list) {
        let record = StepRecord::read(bytes, shape.p()).unwrap();
        let helps = &mut helps[record.process as usize];
        if record.act != Act::Step && counting.set_back {
            *helps = 0;
        }
        if let Some(Step::V3 { advance }) = machine.next_step(record.process) {
            let moves = machine.memory.head(advance.node) == advance.place;
            *helps += u8::from((counting.counts)(advance.then, moves));
        }
        if let Some(answer) = play_record(&mut machine, number, record) {
            let helps = *helps;
            log.extend(Answer { helps, ..answer }.bytes());
        }
    }
    log
}

/// What the checker of demand 3 says of the log.
fn judged(counting: Counting, fixed: &HelpList) -> Result<(), Violation> {
    let (p, l, list) = (fixed.p, fixed.l, fixed.list.clone().bytes());
    let log = log_by(counting, Shape::new(p, l).unwrap(), &list);
    check(p, l, &list, &log, &run_amply(p, l, &list).table)
}

#[test]
fn with_helps_counted_otherwise_an_answer_is_wrong() {
    for fixed in help_lists() {
        assert_eq!(judged(RIGHT_COUNT, &fixed), Ok(()), "{}", fixed.about);
    }
    let [left, right, left_moved, right_moved, next, _, inner, inner_moved, failed] = help_lists();
    // The first answer that is wrong, and its helps by the rules.
    for (counting, fixed, answer, counted) in [
        (MOVED_BY_ANOTHER, &left_moved, 0, 0),
        (MOVED_BY_ANOTHER, &right_moved, 0, 0),
        (MOVED_BY_ANOTHER, &inner_moved, 0, 0),
        (OWN_LEAF, &left, 0, 1),
        (OWN_LEAF, &inner_moved, 0, 0),
        (REFRESHED_NODE, &left, 0, 1),
        (REFRESHED_NODE, &inner_moved, 0, 0),
        (FAILED_REFRESH, &failed, 0, 0),
        (LEFT_ALONE, &right, 0, 1),
        (LEFT_ALONE, &inner, 0, 2),
        (RIGHT_ALONE, &left, 0, 1),
        (RIGHT_ALONE, &inner, 0, 2),
        (NOT_SET_BACK, &next, 2, 0),
    ] {
        let wrong = Err(Violation::AnswerHelps { answer, counted });
        assert_eq!(judged(counting, fixed), wrong, "{}", fixed.about);
    }
}
