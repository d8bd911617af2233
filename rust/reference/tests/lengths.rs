//! Run with buffers of every length: 9, torn lists, and content that must stay.

use crate::support::{
    mixed_list, needed, run_amply, run_with, then_pattern_bytes, then_pattern_words, written, SPARE,
};
use reference::run::{play, Room, RunResult};
use reference::tree::Shape;

/// For each Q of the list, the number of its record, from 0.
fn q_records(p: u32, l: u32, list: &[u8]) -> Vec<usize> {
    let shape = Shape::new(p, l).unwrap();
    let answers = |records: usize| {
        let before = &list[..8 * records];
        play(shape, before, Room::Unlimited).answers.len()
    };
    (0..list.len() / 8)
        .filter(|&i| answers(i + 1) > answers(i))
        .collect()
}

/// Number 9 stops at the first Q without room and leaves what the records before it left.
fn assert_answer_lengths(p: u32, l: u32, list: &[u8]) {
    let qs = q_records(p, l, list);
    assert_eq!(qs.len(), (p * l) as usize);
    let words = needed(p, l);
    for bytes in 0..=16 * qs.len() + SPARE {
        let ran = run_with(p, l, list, words, bytes);
        let whole = bytes / 16;
        let taken = qs.get(whole).copied().unwrap_or(list.len() / 8);
        let expected = RunResult {
            refusal: if whole < qs.len() { 9 } else { 0 },
            taken: taken as u64,
            answers: whole.min(qs.len()) as u64,
        };
        assert_eq!(ran.result, expected, "p {p} l {l} bytes {bytes}");
        let before = run_amply(p, l, &list[..8 * taken]);
        assert_eq!(ran.bytes, then_pattern_bytes(written(&before), bytes));
        assert_eq!(ran.table, before.table[..words]);
    }
}

#[test]
fn every_answer_length() {
    assert_answer_lengths(2, 1, &mixed_list(2, 1, 11));
    assert_answer_lengths(2, 5, &mixed_list(2, 5, 12));
    assert_answer_lengths(4, 2, &mixed_list(4, 2, 13));
    assert_answer_lengths(8, 1, &mixed_list(8, 1, 14));
}

#[test]
fn a_refused_q_can_be_played_with_more_room() {
    let list = mixed_list(2, 1, 11);
    let stopped = run_with(2, 1, &list, needed(2, 1), 16);
    assert_eq!(stopped.result.refusal, 9);
    let again = run_with(2, 1, &list, needed(2, 1), 32);
    assert_eq!(again.result.refusal, 0);
    assert_eq!(again.bytes[..16], stopped.bytes[..16]);
}

#[test]
fn every_table_length_from_the_needed_words_on() {
    for (p, l) in [(2, 1), (4, 2), (8, 1)] {
        let list = mixed_list(p, l, 21);
        let exact = run_with(p, l, &list, needed(p, l), 400);
        for words in needed(p, l)..needed(p, l) + 40 {
            let ran = run_with(p, l, &list, words, 400);
            assert_eq!(ran.result, exact.result);
            assert_eq!(ran.table, then_pattern_words(&exact.table, words));
        }
    }
}

#[test]
fn every_cut_of_a_list() {
    let list = mixed_list(2, 2, 31);
    let words = needed(2, 2);
    for length in 0..=list.len() {
        let ran = run_with(2, 2, &list[..length], words, 64);
        let refusal = if length % 8 == 0 { 0 } else { 4 };
        assert_eq!(ran.result.refusal, refusal, "length {length}");
        let taken = if refusal == 0 { length as u64 / 8 } else { 0 };
        assert_eq!(ran.result.taken, taken, "length {length}");
    }
}

#[test]
fn an_empty_list_clears_the_needed_words() {
    for (p, l) in [(2, 1), (4, 3), (8, 500)] {
        let words = needed(p, l);
        let ran = run_with(p, l, &[], words + SPARE, SPARE);
        assert_eq!(
            ran.table,
            then_pattern_words(&vec![0; words], words + SPARE)
        );
        assert_eq!(ran.bytes, then_pattern_bytes(&[], SPARE));
    }
}

#[test]
fn what_the_table_held_before_plays_no_part() {
    let list = mixed_list(4, 2, 41);
    let first = run_amply(4, 2, &list);
    let (mut table, mut bytes) = (first.table.clone(), vec![0; 200]);
    let result = reference::run::run(4, 2, &list, &mut table, &mut bytes);
    assert_eq!((result, &table), (first.result, &first.table));
    assert_eq!(&bytes[..written(&first).len()], written(&first));
}
