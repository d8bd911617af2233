//! A list with all operations that the largest p and l allow, and as many terms as there can be.

use std::fs;
use std::path::Path;
use std::thread;

const P: u8 = 8;
const L: u32 = 500;
/// Steps of an operation that meets no other.
const STEPS: usize = 45;

/// What a thread uses besides.
const OF_THREAD: usize = 10_000;

/// The bytes of stack that the header says.
fn stack() -> usize {
    let header = Path::new(env!("CARGO_MANIFEST_DIR")).join("../../include/dictionary.h");
    let header = fs::read_to_string(header).expect("the header");
    let (before, _) = header.split_once(" bytes of stack").expect("its figure");
    let figure = before.rsplit(' ').next().expect("a word");
    figure.replace(',', "").parse().expect("a number")
}

/// A begin and the steps of a whole operation.
fn operation(process: u8, kind: u8, value: u32) -> Vec<u8> {
    let begin = [[process, kind, 0, 0], value.to_le_bytes()].concat();
    let step = [process, 0, 0, 0, 0, 0, 0, 0];
    [begin, step.repeat(STEPS)].concat()
}

/// In each round process 0 puts a term, and the others take: the first of them gets it.
fn rounds() -> Vec<u8> {
    let round = |term| {
        let put = operation(0, 1, dictionary::FIRST_ENTRY + term);
        let takes = (1..P).flat_map(|process| operation(process, 2, 0));
        put.into_iter().chain(takes).collect::<Vec<u8>>()
    };
    (0..L).flat_map(round).collect()
}

#[test]
fn it_is_delivered_on_the_stack_that_the_header_says() {
    let records = rounds();
    let deliver = move || dictionary::terms(P.into(), L, 0, &records);
    let builder = thread::Builder::new().stack_size(stack() + OF_THREAD);
    let thread = builder.spawn(deliver);
    let terms = thread.expect("a thread").join().expect("it ends");
    assert_eq!(terms, Ok((0..L).collect()));
}
