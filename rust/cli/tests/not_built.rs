//! What the tool does where the archive of a proved library is not built. The gate runs this before it
//! builds the archives; with an archive, the same commands do what they should.

// Other tests use the rest of it.
#[allow(dead_code)]
mod support;

use support::{bytes, content, otq, with_numbers, written, BEGINS, LOG, SHEET, STEPS, TERMS, TEXT};

/// The command does what it should if its library is built, and else says this alone.
fn assert_needs(words: &[&str], built: bool, not_built: &str) {
    let said = otq(words);
    match built {
        true => assert_eq!((said.status, said.err.as_str()), (0, ""), "{words:?}"),
        false => {
            assert_eq!((said.status, said.out.as_str()), (2, ""), "{words:?}");
            assert_eq!(said.err, not_built, "{words:?}");
        }
    }
}

const NO_QUEUE: &str =
    "otq: the proved library is not built: run `.ci/archive queue` in the repository \
     (many minutes, it proves it), then build this program again\n";
const NO_DESK: &str =
    "otq: the proved delivery desk is not built: run `.ci/archive desk` in the repository \
     (many minutes, it proves it), then build this program again\n";
const NO_PRICES: &str =
    "otq: the proved price sheet is not built: run `.ci/archive price` in the repository \
     (a few minutes, it proves it), then build this program again\n";

#[test]
fn commands_that_call_the_queue() {
    for words in [
        vec!["run", TEXT],
        vec!["order", TEXT],
        vec!["check", TEXT, LOG],
        vec!["forecast", BEGINS],
        vec!["table", TEXT],
        vec!["trace", TEXT],
        vec!["make", "-p", "2", "-L", "1", "--pace", "one", "--seed", "1"],
    ] {
        assert_needs(&words, otq::BUILT, NO_QUEUE);
    }
}

/// The desk's terms are told with their takes and puts, for which the queue is asked.
#[test]
fn the_command_that_calls_both() {
    let words = ["desk", "--licensed", "0", TERMS];
    let not_built = if otq::BUILT { NO_DESK } else { NO_QUEUE };
    assert_needs(&words, otq::BUILT && dictionary::BUILT, not_built);
}

/// The price sheet has an archive of its own, and needs no other.
#[test]
fn the_command_that_calls_the_price_sheet() {
    let words = ["price", "250", SHEET];
    assert_needs(&words, dictionary::price::BUILT, NO_PRICES);
}

#[test]
fn commands_that_do_without_it() {
    assert_eq!(bytes(&["encode", TEXT]), content(STEPS));
    assert!(written(&with_numbers("decode", &[STEPS])).starts_with("processes 2\n"));
    assert!(written(&["show", "--as", "log", LOG]).starts_with("1 put 0 1 17 0 1\n"));
    assert!(written(&["nodes"]).starts_with("p = 2 processes, at most L = 24 operations"));
    assert!(written(&["explain", "6"]).starts_with("6 "));
    assert!(written(&["explain", "15"]).starts_with("15 "));
    assert!(written(&["run", "--help"]).starts_with("otq run "));
    let with = |built| if built { "with" } else { "without" };
    assert_eq!(
        written(&["--version"]),
        format!(
            "otq 0.1.0, {} the proved library, {} the proved delivery desk, {} the proved price sheet\n",
            with(otq::BUILT),
            with(dictionary::BUILT),
            with(dictionary::price::BUILT)
        )
    );
}
