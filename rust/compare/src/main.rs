//! compare RECORDS [SEED]: compares the compiled libraries with the reference on random and hostile
//! lists until so many records were played, and on price sheets along with them. It ends with a panic
//! at the first difference. It tells how often each number, verdict, case and branch of a step came up,
//! and fails if one of them never did, as some do not where records are few.

use compare::tally::compare;
use std::io::{stderr, Write};
use std::process::ExitCode;
use std::time::{Duration, Instant};

fn main() -> ExitCode {
    let words: Vec<String> = std::env::args().skip(1).collect();
    let numbers: Option<Vec<u64>> = words.iter().map(|word| word.parse().ok()).collect();
    let message = match numbers.as_deref() {
        _ if !otq::BUILT => otq::NOT_BUILT,
        _ if !dictionary::BUILT => dictionary::NOT_BUILT,
        _ if !dictionary::price::BUILT => dictionary::price::NOT_BUILT,
        Some(&[records]) => return compare_records(records, 1),
        Some(&[records, seed]) => return compare_records(records, seed),
        _ => "usage: compare RECORDS [SEED], such as compare 10000000",
    };
    eprintln!("{message}");
    ExitCode::from(2)
}

fn compare_records(records: u64, seed: u64) -> ExitCode {
    let began = Instant::now();
    let mut shown = began;
    let tally = compare(records, seed, |tally| {
        if shown.elapsed() >= Duration::from_secs(1) {
            shown = Instant::now();
            let done = 100 * tally.records / records.max(1);
            eprint!(
                "\r{done} %: {} records, {} lists",
                tally.records, tally.lists
            );
            stderr().flush().expect("standard error is open");
        }
    });
    eprintln!();
    println!(
        "no difference on {} records of {} lists (seed {seed}, {} s)",
        tally.records,
        tally.lists,
        began.elapsed().as_secs()
    );
    println!("{tally}");
    let never = tally.never_met();
    if never.is_empty() {
        return ExitCode::SUCCESS;
    }
    eprintln!("play more records: never met were {}", never.join("; "));
    ExitCode::FAILURE
}
