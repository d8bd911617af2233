//! Documents that show commands with what they print: each does what is shown.
//!
//! A code block whose first line begins with `$ ` is a transcript: lines that begin with `$ ` are
//! typed, the others are printed. Its commands are run by one shell.

use crate::support::{path, repository, without_progress};
use std::fs;
use std::os::unix::fs::symlink;
use std::path::Path;
use std::process::Command;

/// The code blocks of a document, without their indent.
fn blocks(text: &str) -> Vec<String> {
    let mut blocks = vec![String::new()];
    for line in text.lines() {
        match line.strip_prefix("    ") {
            Some(code) => *blocks.last_mut().expect("one") += &format!("{code}\n"),
            None if line.is_empty() => {}
            None => blocks.push(String::new()),
        }
    }
    blocks.retain(|block| block.starts_with("$ "));
    blocks
}

/// A script that types what a transcript types. The status of a command outlives its showing.
fn script(block: &str) -> String {
    let typed = block.lines().filter_map(|line| line.strip_prefix("$ "));
    let lines = typed.map(|typed| {
        let shown = typed.replace('\'', "'\\''");
        format!("status=$?; printf '$ %s\\n' '{shown}'; (exit $status)\n{typed}\n")
    });
    lines.collect()
}

fn assert_shown(document: &str, block: &str) {
    let folder = path("transcripts");
    fs::create_dir_all(&folder).expect("a folder");
    let examples = Path::new(&folder).join("examples");
    let _ = symlink(repository().join("examples"), &examples);
    let program = Path::new(env!("CARGO_BIN_EXE_otq"))
        .parent()
        .expect("a folder");
    let others = std::env::var("PATH").expect("a path");
    let output = Command::new("bash")
        .args(["-c", &format!("exec 2>&1\n{}", script(block))])
        .env("PATH", format!("{}:{others}", program.display()))
        .current_dir(&folder)
        .output()
        .expect("bash starts");
    assert_eq!(without_progress(&output.stdout), block, "{document}");
}

/// The documents, and how many transcripts they have at least.
const DOCUMENTS: [(&str, usize); 2] = [("README.md", 12), ("examples/supplier/README.md", 8)];

#[test]
fn documents_show_what_is_printed() {
    for (document, least) in DOCUMENTS {
        let text = fs::read_to_string(repository().join(document)).expect(document);
        let blocks = blocks(&text);
        assert!(blocks.len() >= least, "{document}");
        for block in blocks {
            assert_shown(document, &block);
        }
    }
}
