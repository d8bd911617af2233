//! Helpers of the tests.

use c_programs::repository;
use compare::calls::Input;
use otq::{most_answer_bytes, most_order_bytes, table_words};
use reference::desk_calls::DeskCall;
use reference::forecast::begins_of;
use reference::hostile::ill_formed;
use reference::random::Random;
use reference::schedules::{schedule, Pace, Plan};
use std::path::PathBuf;
use std::process::Command;

/// A proved program, which must be there.
pub fn built(program: &str) -> PathBuf {
    let path = repository().join(format!("crates/{program}/out/{program}"));
    assert!(
        path.is_file(),
        "there is no {}: run `rt run` in crates/{program} first",
        path.display()
    );
    path
}

/// What a proved program prints for this input.
pub fn printed(program: &str, input: &[u8]) -> String {
    spawned::written(&mut Command::new(built(program)), input)
}

/// A list in which all operations of all processes finish, in short bursts.
pub fn mixed_list(p: u32, l: u32, seed: u64) -> Vec<u8> {
    schedule(&Plan::new(p, l, Pace::Bursts(9), seed))
}

/// The same with values for the desk, which takes every record.
pub fn desk_list(p: u32, l: u32, seed: u64) -> DeskCall {
    let plan = Plan::new(p, l, Pace::Bursts(9), seed);
    DeskCall::proper(&mut Random::new(seed), &plan)
}

pub fn needed(p: u32, l: u32) -> usize {
    table_words(p, l).expect("a proper p and L")
}

/// The calls with room for everything, the log being the run's own and then one without answers; and
/// the forecast of the list's begins.
pub fn compare_amply(p: u32, l: u32, records: &[u8]) {
    let input = Input { p, l, records };
    let words = needed(p, l);
    let (_, log) = input.run(words, most_answer_bytes(p, l).expect("a proper p and L"));
    input.list_order(words, most_order_bytes(p, l).expect("a proper p and L"));
    input.check_log(words, &log);
    input.check_log(words, &[]);
    let records = &begins_of(records)[..];
    Input { p, l, records }.forecast();
}

/// The list with one record more, at every place: ill-formed ones of each sort, and a step, a begin
/// of a put and a begin of a take by each process. At most places these are of an idle process, of a
/// busy one, or past L.
pub fn with_a_record_more(p: u32, list: &[u8]) -> impl Iterator<Item = Vec<u8>> + '_ {
    let mut records = ill_formed(p);
    for process in 0..p as u8 {
        records.extend([0, 1, 2].map(|kind| [process, kind, 0, 0, 0, 0, 0, 0]));
    }
    let places = (0..=list.len()).step_by(8);
    places.flat_map(move |place| {
        let (before, after) = list.split_at(place);
        let lists = records.clone().into_iter();
        lists.map(move |record| [before, &record, after].concat())
    })
}
