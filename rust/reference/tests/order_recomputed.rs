//! Root order and answers against two other ways of finding them.

use crate::support::{needed, pattern_words, PAPER_BLOCK_WORDS};
use reference::machine::Machine;
use reference::order::{margin, put_value, root_block_of, root_order, Given, Standing};
use reference::records::{numbered, Answer, Kind, Outcome, StepRecord};
use reference::run::{play, play_record, run, Room};
use reference::schedules::{schedule, Ending, Pace, Plan};
use reference::tree::{Shape, Tree, ROOT};

fn plans() -> Vec<Plan> {
    let mut plans = Vec::new();
    for p in [2, 4, 8] {
        for (pace, l) in [
            (Pace::Uniform, 6),
            (Pace::Bursts(25), 9),
            (Pace::Lockstep, 4),
        ] {
            for seed in 0..8 {
                let ending = if seed % 2 == 0 {
                    Ending::AllFinish
                } else {
                    Ending::Cut(200)
                };
                let puts_of_8 = 2 + seed as u32 / 2;
                let plan = Plan::new(p, l, pace, seed).puts_of_8(puts_of_8);
                plans.push(plan.ending(ending));
            }
        }
    }
    plans
}

/// Word `word` of a node's block, found in the work table by adding up the parts.
fn word_at(p: u32, l: u32, table: &[u32], node: u32, place: u32, word: usize) -> u32 {
    let mut start = 0;
    for before in 1..node {
        let leaves_below = p >> before.ilog2();
        start += PAPER_BLOCK_WORDS * (l * leaves_below + 1) as usize;
    }
    table[start + PAPER_BLOCK_WORDS * place as usize + word]
}

/// From a leaf's place up: side and place at each level, the root block last.
fn way_up(p: u32, l: u32, table: &[u32], process: u32, serial: u32) -> Option<Vec<u32>> {
    let (mut node, mut place) = (p + process, serial);
    let mut way = vec![place, node % 2];
    while node > 1 {
        let (above, end_word) = (node / 2, 3 + (node % 2) as usize);
        let last = l * (p >> above.ilog2());
        let end = |b: u32| word_at(p, l, table, above, b, end_word);
        place = (1..=last).find(|&b| end(b - 1) < place && place <= end(b))?;
        node = above;
        way.extend([place, node % 2]);
    }
    Some(way)
}

/// The root order by sorting: root block, kind, then side and place at each level down.
fn sorted_order(p: u32, l: u32, table: &[u32]) -> Vec<[u32; 4]> {
    let mut keyed = Vec::new();
    for process in 0..p {
        for serial in 1..=l {
            let Some(mut way) = way_up(p, l, table, process, serial) else {
                continue;
            };
            way.pop();
            let root_block = way.pop().unwrap();
            way.reverse();
            let puts = |place| word_at(p, l, table, p + process, place, 0);
            let kind = if puts(serial) > puts(serial - 1) {
                1
            } else {
                2
            };
            keyed.push((root_block, kind, way, process, serial));
        }
    }
    keyed.sort();
    keyed
        .iter()
        .map(|(b, kind, _, process, serial)| [*process, *kind, *serial, *b])
        .collect()
}

fn numbers(standing: &Standing) -> [u32; 4] {
    let kind = if standing.kind == Kind::Put { 1 } else { 2 };
    [
        standing.given.process,
        kind,
        standing.given.place,
        standing.root_block,
    ]
}

#[test]
fn root_order_by_sorting() {
    let mut standing = 0;
    for plan in plans() {
        let (p, l) = (plan.p, plan.l);
        let mut table = pattern_words(needed(p, l));
        run(
            p,
            l,
            &schedule(&plan),
            &mut table,
            &mut vec![0; 16 * (p * l) as usize],
        );
        let tree = Tree::from_words(Shape::new(p, l).unwrap(), &table);
        let order: Vec<_> = root_order(&tree).iter().map(numbers).collect();
        assert_eq!(order, sorted_order(p, l, &table), "{plan:?}");
        standing += order.len();
    }
    assert!(standing > 1000, "{standing} operations in all orders");
}

/// An operation's answer with the whole root order opened.
fn literal_outcome(tree: &Tree, order: &[Standing], given: Given) -> (u32, Outcome) {
    let index = order
        .iter()
        .position(|s| s.given == given)
        .expect("it stands in the order");
    let Standing {
        kind, root_block, ..
    } = order[index];
    if kind == Kind::Put {
        return (root_block, Outcome::PutDone);
    }
    let same = |s: &&Standing| s.kind == Kind::Take && s.root_block == root_block;
    let i = order[..=index].iter().filter(same).count() as u32;
    if margin(tree, root_block, i) < 0 {
        return (root_block, Outcome::Nothing);
    }
    let before = tree.block(ROOT, root_block - 1);
    let puts: Vec<_> = order.iter().filter(|s| s.kind == Kind::Put).collect();
    let put = puts[(i + before.puts - before.size) as usize - 1].given;
    let value = tree
        .block(tree.shape().leaf(put.process), put.place)
        .end_left;
    (root_block, Outcome::Value(value))
}

fn assert_literal(tree: &Tree, order: &[Standing], answer: &Answer) {
    let (process, place) = (answer.process, answer.serial);
    let literal = literal_outcome(tree, order, Given { process, place });
    assert_eq!((answer.root_block, answer.outcome), literal, "{answer:?}");
}

#[test]
fn answers_with_the_whole_order_opened_at_each_q() {
    for plan in plans() {
        let mut machine = Machine::start(Shape::new(plan.p, plan.l).unwrap());
        for (number, bytes) in numbered(&schedule(&plan)) {
            let record = StepRecord::read(bytes, plan.p).unwrap();
            if let Some(answer) = play_record(&mut machine, number, record) {
                let tree = &machine.memory.tree;
                assert_literal(tree, &root_order(tree), &answer);
            }
        }
    }
}

#[test]
fn answers_with_the_order_at_the_end() {
    // Q reads only what no longer changes, so the end gives the same answers.
    for plan in plans() {
        let shape = Shape::new(plan.p, plan.l).unwrap();
        let played = play(shape, &schedule(&plan), Room::Unlimited);
        let tree = &played.machine.memory.tree;
        let order = root_order(tree);
        for answer in &played.answers {
            assert_literal(tree, &order, answer);
        }
    }
}

#[test]
fn root_blocks_and_put_numbers_one_by_one() {
    for plan in plans() {
        let shape = Shape::new(plan.p, plan.l).unwrap();
        let tree = play(shape, &schedule(&plan), Room::Unlimited)
            .machine
            .memory
            .tree;
        let order = root_order(&tree);
        for process in 0..plan.p {
            for place in 1..=plan.l {
                let given = Given { process, place };
                let standing = order.iter().find(|s| s.given == given);
                assert_eq!(root_block_of(&tree, given), standing.map(|s| s.root_block));
            }
        }
        let puts: Vec<_> = order.iter().filter(|s| s.kind == Kind::Put).collect();
        for (index, put) in puts.iter().enumerate() {
            let leaf = tree.block(shape.leaf(put.given.process), put.given.place);
            assert_eq!(put_value(&tree, index as u32 + 1), Some(leaf.end_left));
        }
        assert_eq!(put_value(&tree, puts.len() as u32 + 1), None);
    }
}
