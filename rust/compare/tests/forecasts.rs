//! The forecast: each number at its edge, begins with something wrong at every place, and runs on
//! just what is foreseen.

use crate::support::{mixed_list, with_a_record_more};
use compare::calls::Input;
use compare::forecasts::Forecasts;
use reference::forecast::{begins_of, ForecastResult};
use reference::lists::List;
use reference::random::Random;

fn foreseen(p: u32, l: u32, records: &[u8]) -> ForecastResult {
    Input { p, l, records }.forecast()
}

/// The begins of a list in which every process begins L.
fn all_begins(p: u32, l: u32) -> Vec<u8> {
    begins_of(&mixed_list(p, l, 6))
}

#[test]
fn sums_by_hand() {
    for (p, l, words, bytes, records) in [
        (2, 1, 49, 32, 84),
        (4, 3, 301, 192, 984),
        (8, 500, 112_105, 64_000, 488_000),
    ] {
        let expected = ForecastResult {
            refusal: 0,
            words,
            answer_bytes: bytes,
            records,
        };
        assert_eq!(foreseen(p, l, &all_begins(p, l)), expected);
    }
}

/// Each number, and of two tests that fail the one that comes first.
#[test]
fn numbers_in_their_order() {
    let put = [1, 1, 0, 0, 5, 0, 0, 0];
    let (step, ill_step) = ([0; 8], [0, 0, 0, 0, 0, 0, 0, 1]);
    let twice = [put, put].concat();
    for (number, p, l, begins) in [
        (0, 2, 1, vec![]),
        (0, 2, 1, put.to_vec()),
        (1, 3, 0, vec![1]),
        (2, 2, 0, vec![1]),
        (2, 2, 501, step.to_vec()),
        (4, 2, 1, vec![255; 9]),
        (4, 2, 1, [&twice[..], &[0]].concat()),
        (5, 2, 1, [ill_step, step].concat()),
        (5, 2, 1, [&put[..], &[1, 1, 1, 0, 0, 0, 0, 0]].concat()),
        (12, 2, 1, step.to_vec()),
        (12, 2, 1, [step, ill_step].concat()),
        (12, 2, 1, [&step[..], &twice].concat()),
        (8, 2, 1, [&twice[..], &step].concat()),
        (8, 2, 1, [&twice[..], &ill_step].concat()),
        (0, 2, 2, twice),
    ] {
        assert_eq!(foreseen(p, l, &begins).refusal, number, "{begins:?}");
    }
}

#[test]
fn a_record_more_at_every_place() {
    for (p, l) in [(2, 1), (2, 3), (4, 2), (8, 1)] {
        for longer in with_a_record_more(p, &all_begins(p, l)) {
            foreseen(p, l, &longer);
        }
    }
}

#[test]
fn each_bit_changed() {
    for (p, l) in [(2, 2), (4, 1), (8, 1)] {
        let mut begins = all_begins(p, l);
        for bit in 0..8 * begins.len() {
            begins[bit / 8] ^= 1 << (bit % 8);
            foreseen(p, l, &begins);
            begins[bit / 8] ^= 1 << (bit % 8);
        }
    }
}

/// Each number of begins of one process, past L, with begins of another between them.
#[test]
fn up_to_l_and_past_it() {
    for (p, l) in [(2, 1), (2, 2), (4, 24), (8, 3), (2, 500), (8, 500)] {
        let mut list = List::new();
        for begun in 0..=l + 2 {
            let begins = list.clone().bytes();
            let number = if begun > l { 8 } else { 0 };
            assert_eq!(foreseen(p, l, &begins).refusal, number, "{begun} of {l}");
            let between = if begun % 2 == 1 { list.take(0) } else { list };
            list = between.put(p - 1, begun);
        }
    }
}

#[test]
fn torn_at_every_byte_and_at_any_address() {
    for (p, l) in [(2, 2), (4, 1), (8, 1)] {
        let begins = all_begins(p, l);
        for length in 0..=begins.len() {
            for offset in [0, length % 16] {
                let moved = [&vec![7; offset], &begins[..length]].concat();
                let number = if length % 8 == 0 { 0 } else { 4 };
                assert_eq!(foreseen(p, l, &moved[offset..]).refusal, number);
            }
        }
    }
}

/// The words and bytes foreseen are enough for a list that finishes, and no less is.
#[test]
fn runs_on_what_is_foreseen() {
    for (p, l) in [(2, 1), (2, 24), (4, 5), (8, 3)] {
        let records = &mixed_list(p, l, 7)[..];
        let needs = foreseen(p, l, &begins_of(records));
        let (words, bytes) = (needs.words as usize, needs.answer_bytes as usize);
        let refusal = |words, bytes| Input { p, l, records }.run(words, bytes).0.refusal;
        assert_eq!(refusal(words, bytes), 0);
        assert_eq!(refusal(words - 1, bytes), 3);
        assert_eq!(refusal(words, bytes - 1), 9);
    }
}

#[test]
fn random_and_hostile_begins() {
    let (mut forecasts, mut random) = (Forecasts::default(), Random::new(8));
    for _ in 0..2000 {
        forecasts.compare_hostile(&mut random);
    }
    for (number, times) in forecasts.met() {
        assert!(times > 100, "{number} x{times}");
    }
}
