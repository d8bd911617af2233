//! A refresh keeps the heads that it read: what rises between its reads plays no part.

use crate::support::{needed, run_with, written};
use reference::between_reads::between_reads;
use reference::records::{Answer, ANSWER_RECORD_BYTES};
use reference::tree::BLOCK_WORDS;

/// Root blocks 1 and 2, and of each answer the process, own steps and root block. There are no
/// helps.
type Left = ([[u32; BLOCK_WORDS]; 2], [(u32, u8, u32); 2]);

const LEFT: [Left; 5] = [
    // Only the put of process 1 is below the ends, and then both.
    (
        [[1, 0, 0, 0, 1, 1, 21], [2, 0, 0, 1, 1, 2, 34]],
        [(1, 17, 1), (0, 17, 2)],
    ),
    (
        [[1, 0, 0, 1, 0, 1, 21], [2, 0, 0, 1, 1, 2, 34]],
        [(0, 17, 1), (1, 17, 2)],
    ),
    (
        [[1, 0, 0, 0, 1, 1, 21], [2, 0, 0, 1, 1, 2, 34]],
        [(1, 17, 1), (0, 17, 2)],
    ),
    (
        [[1, 0, 0, 1, 0, 1, 21], [2, 0, 0, 1, 1, 2, 34]],
        [(0, 17, 1), (1, 17, 2)],
    ),
    // Block 0 has other totals than block 1, which is there when C4 comes: the refresh has failed.
    (
        [[2, 0, 0, 1, 1, 2, 30], [0; BLOCK_WORDS]],
        [(1, 17, 1), (0, 27, 1)],
    ),
];

#[test]
fn what_is_left() {
    for ((told, list), (root, ends)) in between_reads().into_iter().zip(LEFT) {
        let after = run_with(2, 1, &list.bytes(), needed(2, 1), 32);
        assert_eq!(after.result.refusal, 0, "{told}");
        let blocks = &after.table[BLOCK_WORDS..3 * BLOCK_WORDS];
        assert_eq!(blocks, root.concat(), "{told}");
        let answers = written(&after).chunks_exact(ANSWER_RECORD_BYTES);
        let answers = answers.map(|bytes| Answer::read(bytes).unwrap());
        let found: Vec<_> = answers
            .map(|answer| {
                assert_eq!(answer.helps, 0, "{told}");
                (answer.process, answer.steps, answer.root_block)
            })
            .collect();
        assert_eq!(found, ends, "{told}");
    }
}
