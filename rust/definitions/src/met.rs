//! What the rows meet: the numbers and verdicts of the calls, the branches of the steps, helps, the cases
//! of demand 3's terms, and those of the desk, of prices and of the starts of nodes.

use reference::branches::Branches;
use std::fmt;

/// What the rows must meet besides the branches of the steps, by what can meet it. The numbers and verdicts of the calls
/// are those of document 01, "What each call turns down", and of requests a and b; helps are those
/// of request e, the desk is that of request g, prices are those of request h, and the starts of nodes
/// are those of request j.
const REQUIRED: [(&str, &[&str]); 18] = [
    ("run", &["0", "1", "2", "3", "4", "5", "6", "7", "8", "9"]),
    ("list", &["0", "1", "2", "3", "4", "5", "6", "7", "8", "10"]),
    (
        "check",
        &[
            "same", "unequal", "shorter", "longer", "1", "2", "3", "4", "5", "6", "7", "8", "11",
        ],
    ),
    (
        "begin",
        &[
            "inside the last of 1: 8",
            "after the last of 1: 8",
            "inside the last of 2: 8",
            "after the last of 2: 8",
            "inside another of 2: 6",
            "inside the last of 500: 8",
            "after the last of 500: 8",
            "inside another of 500: 6",
        ],
    ),
    ("answer helps", &["0", "1", "more"]),
    ("forecast", &["0", "1", "2", "4", "5", "8", "12"]),
    ("foreseen", &["p=2", "p=4", "p=8"]),
    ("limit", &["p=2", "p=4", "p=8"]),
    ("operation", &["finished", "placed", "begun", "unopened"]),
    ("own helps", &["0", "1", "more"]),
    ("answer", &["done", "value", "none"]),
    (
        "desk",
        &[
            "0", "1", "2", "3", "4", "5", "6", "7", "8", "10", "13", "14",
        ],
    ),
    (
        "delivery",
        &[
            "a term",
            "the first entry",
            "the last entry",
            "just below the entries",
            "takes finish in another order",
            "an entry of an unfinished take",
            "a term of an unfinished put",
            "a term taken by another process",
            "bytes past the terms",
        ],
    ),
    ("price", &["0", "2", "4", "15", "16"]),
    (
        "bill",
        &[
            "no deliveries",
            "all 4,000",
            "up to a band's end",
            "one past a band's end",
            "beyond the last band",
            "an empty first band",
            "an end above 4,000",
            "one band",
            "eight bands",
            "a remainder",
            "a cent of two bands' remainders",
            "the largest price",
        ],
    ),
    (
        "starts",
        &["the table", "L=1", "L=24", "L=500", "another L"],
    ),
    ("node", &["p=2", "p=4", "p=8"]),
    // The tree of p = 8 has all nodes of a row.
    ("lacking node", &["p=2", "p=4"]),
];

/// How a line of the rows' file begins that lists what a row meets.
pub const LINE: &str = "-- met: ";

/// A number or case, and what met it.
#[derive(Clone, PartialEq, Eq, Debug)]
pub struct Met {
    what: String,
    case: String,
}

impl Met {
    pub fn new(what: impl ToString, case: impl ToString) -> Met {
        Met {
            what: what.to_string(),
            case: case.to_string(),
        }
    }

    /// A count of helps.
    pub fn count(what: &str, helps: u32) -> Met {
        match helps {
            0 | 1 => Met::new(what, helps),
            _ => Met::new(what, "more"),
        }
    }

    /// The branches that a list came to, each once.
    pub fn branches(of_list: &Branches) -> Vec<Met> {
        let mut met = Vec::new();
        for (step, finds) in of_list.by_step() {
            let finds = finds.into_iter().filter(|&(_, times)| times > 0);
            met.extend(finds.map(|(finds, _)| Met::new(&step, finds)));
        }
        met
    }
}

impl fmt::Display for Met {
    fn fmt(&self, out: &mut fmt::Formatter) -> fmt::Result {
        write!(out, "{} {}", self.what, self.case)
    }
}

/// Prints how often the rows of these files meet each case. A case that none meets is an error, and
/// so is one that no row can meet.
pub fn tally(files: &[&str]) -> Result<(), String> {
    let mut met = Vec::new();
    for file in files {
        let text = std::fs::read_to_string(file).map_err(|error| format!("{file}: {error}"))?;
        let lines = text.lines().filter_map(|line| line.strip_prefix(LINE));
        met.extend(lines.flat_map(|line| line.split(", ")).map(str::to_string));
    }
    let required = REQUIRED.map(|(what, cases)| (what.to_string(), cases.to_vec()));
    let branches = Branches::default();
    let branches = branches.by_step().map(|(step, finds)| {
        let finds = finds.into_iter().map(|(finds, _)| finds);
        (step, finds.collect())
    });
    let mut never = Vec::new();
    let mut counted = 0;
    for (what, cases) in required.into_iter().chain(branches) {
        let mut line = Vec::new();
        for case in cases {
            let name = format!("{what} {case}");
            let count = met.iter().filter(|met| **met == name).count();
            line.push(format!("{case} x{count}"));
            counted += count;
            if count == 0 {
                never.push(name);
            }
        }
        println!("{what}: {}", line.join(", "));
    }
    if !never.is_empty() {
        return Err(format!("no row meets: {}", never.join(", ")));
    }
    match counted == met.len() {
        true => Ok(()),
        false => Err("a row meets what the rules do not have".to_string()),
    }
}
