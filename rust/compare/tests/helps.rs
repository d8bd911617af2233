//! Helps in the answers of the compiled library.

use crate::support::compare_amply;
use otq::{records_of, Answer};
use reference::help_lists::{help_lists, most_helped};

/// Process, own steps and helps of each answer.
fn counts(p: u32, l: u32, list: &[u8]) -> Vec<(u32, u8, u8)> {
    let played = otq::play(p, l, list);
    assert_eq!(played.run.refusal, None);
    let answers: Vec<Answer> = records_of(&played.answers).unwrap();
    let counts = |answer: &Answer| (answer.process.into(), answer.steps, answer.helps);
    answers.iter().map(counts).collect()
}

#[test]
fn heads_moved_and_found_moved() {
    for fixed in help_lists() {
        let list = fixed.list.bytes();
        let counts = counts(fixed.p, fixed.l, &list).into_iter();
        let helps: Vec<_> = counts.map(|(process, _, helps)| (process, helps)).collect();
        assert_eq!(helps, fixed.helps, "{}", fixed.about);
        compare_amply(fixed.p, fixed.l, &list);
    }
}

/// Two refreshes of each node, with all helps that there can be.
#[test]
fn as_many_as_there_can_be() {
    for (p, l, steps, helps) in [(2, 2, 35, 2), (4, 4, 75, 6), (8, 6, 115, 10)] {
        let list = most_helped(p).bytes();
        assert!(counts(p, l, &list).contains(&(0, steps, helps)), "p {p}");
        compare_amply(p, l, &list);
    }
}
