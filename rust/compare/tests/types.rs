//! The typed records and blocks of `rust/otq` against those of the reference.

use crate::support::needed;
use otq::{Act, Answer, Block, Order, Outcome, Step, Table};
use reference::random::Random;
use reference::records;
use reference::tree::{self, Shape, Tree};

/// Bytes that are mostly small, so that many are records.
fn bytes<const N: usize>(random: &mut Random) -> [u8; N] {
    std::array::from_fn(|at| match random.below(4) {
        0 if at != 1 => random.next() as u8,
        1 => random.below(4) as u8,
        _ if at == 1 => random.below(4) as u8,
        _ => 0,
    })
}

#[test]
fn steps() {
    let mut random = Random::new(1);
    let mut read = 0;
    for _ in 0..100_000 {
        let bytes = bytes(&mut random);
        let expected = records::StepRecord::read(&bytes, 256);
        let found = Step::try_from(bytes).ok();
        let act = |step: Step| match step.act {
            Act::Step => records::Act::Step,
            Act::Put(value) => records::Act::Begin(records::Operation::Put(value)),
            Act::Take => records::Act::Begin(records::Operation::Take),
        };
        let both = found.map(|step| (u32::from(step.process), act(step)));
        assert_eq!(
            both,
            expected.map(|step| (step.process, step.act)),
            "{bytes:?}"
        );
        assert!(found.is_none_or(|step| <[u8; 8]>::from(step) == bytes));
        read += u32::from(found.is_some());
    }
    assert!((1000..99_000).contains(&read), "{read}");
}

#[test]
fn answers() {
    let mut random = Random::new(2);
    let mut read = 0;
    for _ in 0..100_000 {
        let bytes = bytes(&mut random);
        let expected = records::Answer::read(&bytes);
        let found = Answer::try_from(bytes).ok();
        let outcome = |answer: Answer| match answer.outcome {
            Outcome::Done => records::Outcome::PutDone,
            Outcome::Value(value) => records::Outcome::Value(value),
            Outcome::Nothing => records::Outcome::Nothing,
        };
        let both = found.map(|answer| records::Answer {
            process: answer.process.into(),
            outcome: outcome(answer),
            steps: answer.steps,
            helps: answer.helps,
            serial: answer.serial,
            root_block: answer.root_block,
        });
        assert_eq!(both, expected, "{bytes:?}");
        assert!(found.is_none_or(|answer| <[u8; 16]>::from(answer) == bytes));
        read += u32::from(found.is_some());
    }
    assert!((1000..99_000).contains(&read), "{read}");
}

#[test]
fn orders() {
    let mut random = Random::new(3);
    for _ in 0..100_000 {
        let bytes = bytes(&mut random);
        let Ok(order) = Order::try_from(bytes) else {
            assert!(!matches!(bytes[1], 1 | 2), "{bytes:?}");
            continue;
        };
        let expected = records::OrderRecord {
            process: order.process.into(),
            kind: match order.kind {
                otq::Kind::Put => records::Kind::Put,
                otq::Kind::Take => records::Kind::Take,
            },
            serial: order.serial,
            root_block: order.root_block,
        };
        assert_eq!(expected.bytes(), bytes);
        assert_eq!(<[u8; 8]>::from(order), bytes);
    }
}

/// A block of the reference as `rust/otq` has it.
fn typed(block: tree::Block) -> Block {
    Block {
        puts: block.puts,
        takes: block.takes,
        superblock: block.superblock,
        end_left: block.end_left,
        end_right: block.end_right,
        size: block.size,
        number: block.number,
    }
}

/// Every block of a table with random words, and which of them are present.
#[test]
fn blocks() {
    let mut random = Random::new(4);
    let mut present = [0; 2];
    for (p, l) in [(2, 1), (2, 500), (4, 3), (8, 1), (8, 24)] {
        let shape = Shape::new(p, l).unwrap();
        let word = |_| match random.chance(1, 2) {
            true => random.next() as u32,
            false => 0,
        };
        let words: Vec<u32> = (0..needed(p, l) + 3).map(word).collect();
        let (tree, table) = (
            Tree::from_words(shape, &words),
            Table::new(p, l, &words).unwrap(),
        );
        assert_eq!(table.nodes(), 1..=shape.last_node());
        for node in table.nodes() {
            assert_eq!(table.height(node), Some(shape.height(node)));
            assert_eq!(table.last_place(node), Some(shape.last_place(node)));
            let mut of_node = Vec::new();
            for place in 0..=shape.last_place(node) {
                let block = tree.block(node, place);
                let expected = typed(block);
                assert_eq!(table.block(node, place), Some(expected));
                assert_eq!(expected.is_present(), block.present());
                present[usize::from(block.present())] += 1;
                of_node.extend((place > 0 && block.present()).then_some((place, expected)));
            }
            assert_eq!(table.present(node).collect::<Vec<_>>(), of_node);
            assert_eq!(table.block(node, shape.last_place(node) + 1), None);
        }
        for process in 0..p {
            assert_eq!(
                table.process_of_leaf(shape.leaf(process)),
                Some(process as u8)
            );
        }
        assert_eq!(table.process_of_leaf(p - 1), None);
    }
    assert!(present.iter().all(|&blocks| blocks > 100), "{present:?}");
}
