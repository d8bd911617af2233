//! The program: how it is used, in one line, without its number or with another word; and what it says
//! of own steps and helps.

use std::process::Command;

/// For each p, the limits of an operation.
const STEP_LIMITS: [u32; 3] = [41, 81, 121];
const HELP_LIMITS: [u32; 3] = [2, 6, 10];

#[test]
fn one_line_of_usage() {
    for words in [&[][..], &["many"], &["1", "2", "3"], &["-1"]] {
        let mut command = Command::new(env!("CARGO_BIN_EXE_compare"));
        let output = command.args(words).output().expect("the program starts");
        assert_eq!(output.status.code(), Some(2), "{words:?}");
        assert!(output.stdout.is_empty());
        let said = String::from_utf8(output.stderr).expect("text");
        assert_eq!(
            said,
            "usage: compare RECORDS [SEED], such as compare 10000000\n"
        );
    }
}

/// What the program says of each p in the line that begins so, beside these limits.
fn of_each_p(said: &str, begins: &str, limits: [u32; 3]) -> [u32; 3] {
    let line = said.lines().find_map(|line| line.strip_prefix(begins));
    let told: Vec<&str> = line.expect("a line").split(", ").collect();
    let told: [&str; 3] = told.try_into().expect("three p");
    std::array::from_fn(|at| {
        let (p, limit) = ([2, 4, 8][at], limits[at]);
        let most = told[at].strip_prefix(&format!("p = {p}: "));
        let most = most.and_then(|most| most.strip_suffix(&format!(" of {limit}")));
        most.and_then(|most| most.parse().ok()).expect(said)
    })
}

fn assert_above(most: [u32; 3], low: [u32; 3], limits: [u32; 3]) {
    for at in 0..3 {
        assert!(low[at] < most[at] && most[at] <= limits[at], "{most:?}");
    }
}

/// All that is counted came up. For each p the longest operation that was met, which is none of the
/// shortest, and the limit; and the most helps.
#[test]
fn a_million_records() {
    let mut command = Command::new(env!("CARGO_BIN_EXE_compare"));
    command.args(["1000000", "12"]);
    let output = command.output().expect("the program starts");
    assert!(output.status.success(), "{output:?}");
    let said = String::from_utf8(output.stdout).expect("text");
    assert_above(
        of_each_p(&said, "most own steps: ", STEP_LIMITS),
        [17, 31, 45],
        STEP_LIMITS,
    );
    assert_above(
        of_each_p(&said, "most helps: ", HELP_LIMITS),
        [0; 3],
        HELP_LIMITS,
    );
    assert!(times(&said).all(|times| times > 0), "{said}");
}

/// How often each that is counted came up.
fn times(said: &str) -> impl Iterator<Item = u64> + '_ {
    let words = said.split([' ', ',', '\n']);
    let times = words.filter_map(|word| word.strip_prefix('x'));
    times.filter_map(|times| times.parse().ok())
}

/// Without a record nothing comes up, and all that is counted, and helps of each p, is missed.
#[test]
fn without_records_it_fails() {
    let mut command = Command::new(env!("CARGO_BIN_EXE_compare"));
    let output = command.arg("0").output().expect("the program starts");
    assert_eq!(output.status.code(), Some(1), "{output:?}");
    let said = String::from_utf8(output.stdout).expect("text");
    assert!(times(&said).all(|times| times == 0), "{said}");
    let failed = String::from_utf8(output.stderr).expect("text");
    let missed: Vec<&str> = failed.trim().split("; ").collect();
    assert_eq!(missed.len(), times(&said).count() + 3, "{failed}");
    for one in [
        "otq_list_order 10",
        "verdict refused",
        "C4 second refresh of the root: finds a block",
        "helps with p = 8",
        "bill with eight bands",
    ] {
        assert!(missed.contains(&one), "{one}: {failed}");
    }
}
