//! The files of the known runs: each has the call and the records of its row, and prints as its
//! expected print says.

use crate::support::{otq, repository};
use cli::notation::Exercise;
use reference::known_runs::known_runs;
use reference::print::print_result;
use std::fs;
use std::path::PathBuf;

/// The files without their ending, in the order of the rows.
const NAMES: [&str; 13] = [
    "M1", "M2", "M3", "M4", "M5", "M6", "M7", "M8", "M9", "M10", "M10-16", "M11", "M11-49",
];

fn folder() -> PathBuf {
    repository().join("examples/known")
}

fn read(file: &str) -> String {
    fs::read_to_string(folder().join(file)).expect(file)
}

fn exercise(name: &str) -> Exercise {
    Exercise::read(read(&format!("{name}.txt")).as_bytes()).expect(name)
}

#[test]
fn the_folder_has_these_files() {
    let entries = fs::read_dir(folder()).expect("the folder of the known runs");
    let mut found: Vec<String> = entries
        .map(|entry| entry.expect("an entry").file_name())
        .map(|name| name.into_string().expect("a plain name"))
        .collect();
    let mut expected: Vec<String> = NAMES
        .iter()
        .flat_map(|name| [format!("{name}.expected"), format!("{name}.txt")])
        .collect();
    found.sort();
    expected.sort();
    assert_eq!(found, expected);
}

#[test]
fn files_have_the_calls_of_the_rows() {
    let rows = known_runs();
    assert_eq!(rows.len(), NAMES.len());
    for (row, name) in rows.iter().zip(NAMES) {
        let number = name.split('-').next();
        assert_eq!(row.name.split(',').next(), number, "{name}");
        let Exercise {
            heading, records, ..
        } = exercise(name);
        assert_eq!(records, row.list, "{name}");
        assert_eq!((heading.p(), heading.l()), (row.p, row.l), "{name}");
        let lent = (heading.table_words(), heading.answer_bytes());
        assert_eq!(lent, (row.words, row.bytes), "{name}");
    }
}

#[test]
fn expected_prints_are_those_of_the_rows() {
    for (row, name) in known_runs().iter().zip(NAMES) {
        let answers: Vec<u8> = row.answers.iter().flat_map(|a| a.bytes()).collect();
        let print = print_result(row.result, &answers);
        assert_eq!(read(&format!("{name}.expected")), print, "{name}");
    }
}

#[test]
fn the_library_plays_them_as_expected() {
    for (row, name) in known_runs().iter().zip(NAMES) {
        let said = otq(&["run", &format!("examples/known/{name}.txt")]);
        assert_eq!(said.out, read(&format!("{name}.expected")), "{name}");
        let status = if row.result.refusal == 0 { 0 } else { 3 };
        assert_eq!(said.status, status, "{name}");
    }
}

/// What `rt` runs the printing program on, and what it must print.
#[test]
fn the_printing_program_is_checked_on_m2() {
    let beside = |file| {
        let path = repository().join("crates/print_run").join(file);
        fs::read(&path).unwrap_or_else(|error| panic!("{}: {error}", path.display()))
    };
    assert_eq!(exercise("M2").records, beside("stdin"));
    assert_eq!(read("M2.expected").into_bytes(), beside("stdout"));
}
