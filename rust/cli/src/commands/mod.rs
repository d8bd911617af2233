//! The commands of `otq`, and which words they know.

mod checking;
mod coding;
mod delivering;
mod explaining;
mod forecasting;
mod listing;
mod locating;
mod making;
mod playing;
mod pricing;
mod showing;
mod tabling;
mod tracing;

use crate::arguments::{Choice, Given};
use crate::failure::{Failure, Status};
use crate::tool::Tool;
use crate::words::shown;
use std::ffi::OsString;

/// A command of `otq`.
struct Command {
    name: &'static str,
    /// What follows the name.
    usage: &'static str,
    /// What it does, in a line, and what else is to be said.
    about: &'static str,
    more: &'static str,
    choices: &'static [&'static Choice],
    /// The least and the most files.
    files: (usize, usize),
    /// The proved libraries that it calls.
    libraries: &'static [Library],
    call: fn(&mut Tool, &Given) -> Result<Status, Failure>,
}

/// A proved library, which is linked if its archive was there when this program was built.
struct Library {
    built: bool,
    /// What to do if it was not.
    not_built: &'static str,
}

const QUEUE: Library = Library {
    built: otq::BUILT,
    not_built: otq::NOT_BUILT,
};
const DESK: Library = Library {
    built: dictionary::BUILT,
    not_built: dictionary::NOT_BUILT,
};
const PRICE: Library = Library {
    built: dictionary::price::BUILT,
    not_built: dictionary::price::NOT_BUILT,
};

pub const P: Choice = Choice {
    name: "-p",
    value: Some("P"),
    about: "the number of processes, 2, 4 or 8",
};
pub const L: Choice = Choice {
    name: "-L",
    value: Some("L"),
    about: "the most operations of one process, 1 to 500",
};
const WHOLE: Choice = Choice {
    name: "--whole",
    value: None,
    about: "leaves out bytes after the last whole record",
};
const JSON: Choice = Choice {
    name: "--json",
    value: None,
    about: "writes the result as JSON",
};

const COMMANDS: [Command; 14] = [
    Command {
        name: "run",
        usage: "[-p P -L L] STEPS [--log OUT] [--whole] [--json]",
        about: "plays the steps, prints the answers, and writes the answer log",
        more: "A line an answer: put or take, process, serial of the operation in its process, own steps,\n\
               helps (heads that it moved for other processes' blocks), root block, and for a take its\n\
               value or `none`. Last `end`, the refusal number (0 for none) and the records taken.",
        choices: &[&P, &L, &playing::LOG, &WHOLE, &JSON],
        files: (1, 1),
        libraries: &[QUEUE],
        call: playing::run,
    },
    Command {
        name: "order",
        usage: "[-p P -L L] STEPS [--raw OUT] [--whole] [--json]",
        about: "lists the order in which the operations took effect",
        more: "A line an operation: put or take, process, serial, root block.",
        choices: &[&P, &L, &listing::RAW, &WHOLE, &JSON],
        files: (1, 1),
        libraries: &[QUEUE],
        call: listing::order,
    },
    Command {
        name: "check",
        usage: "[-p P -L L] STEPS LOG [--all] [--whole] [--json]",
        about: "checks a log of answer records against the rules",
        more: "Prints `same`, or where the log differs: both records field by field, the first byte that\n\
               differs, and the record of the list that ended the operation.",
        choices: &[&P, &L, &checking::ALL, &WHOLE, &JSON],
        files: (2, 2),
        libraries: &[QUEUE],
        call: checking::check,
    },
    Command {
        name: "desk",
        usage: "--licensed K [-p P -L L] STEPS [--raw OUT] [--whole] [--json]",
        about: "delivers the dictionary terms that the takes received",
        more: "A value of 2147483648 or more is a dictionary entry, and what it is above that its term.\n\
               Process K alone may put entries. A line a term, in the order in which the takes took effect:\n\
               the term, process and serial of the take that received it, process and serial of the put\n\
               that it came from, and which put that is in the order of `otq order`, from 1. Last the count.\n\
               Takes that did not end deliver nothing.",
        choices: &[&delivering::LICENSED, &P, &L, &delivering::RAW, &WHOLE, &JSON],
        files: (1, 1),
        libraries: &[QUEUE, DESK],
        call: delivering::desk,
    },
    Command {
        name: "price",
        usage: "COUNT SHEET [--json]",
        about: "tells what COUNT deliveries cost by a price sheet",
        more: "COUNT is 0 to 4000. A line a band in which deliveries fall: which deliveries, how many, the price\n\
               of a hundred, and what they cost, in cents with hundredths of a cent. Last the total. Nothing is\n\
               rounded.",
        choices: &[&JSON],
        files: (0, 2),
        libraries: &[PRICE],
        call: pricing::price,
    },
    Command {
        name: "forecast",
        usage: "[-p P -L L] BEGINS [--whole] [--json]",
        about: "tells from its begins alone what a list will need",
        more: "The words of the work table, the bytes of the answers if all operations end, and the most\n\
               records that are taken: they hold of every list with these begins in this order. Nothing is\n\
               played.",
        choices: &[&P, &L, &WHOLE, &JSON],
        files: (1, 1),
        libraries: &[QUEUE],
        call: forecasting::forecast,
    },
    Command {
        name: "show",
        usage: "--as steps|log|order FILE",
        about: "shows a binary file as text",
        more: "A line a record, with its number; of a torn file the whole records, and where it is torn.",
        choices: &[&showing::AS],
        files: (1, 1),
        libraries: &[],
        call: showing::show,
    },
    Command {
        name: "table",
        usage: "[-p P -L L] STEPS [--node V] [--whole] [--json]",
        about: "shows the blocks that the steps left, and when each was written",
        more: "By node, a line a block: its place, the puts and takes up to it, super (`-` if it is not set), its\n\
               ends in the children or in a leaf its operation, in the root the size of the queue after it,\n\
               and the record that wrote it with that record's process. `otq trace` tells what the record did.\n\
               A line leaves out words that are always 0 in its node; --json has all seven, and 0 for a super\n\
               that is not set.\n\
               Of a refused list it shows what the records before the refused one left.",
        choices: &[&P, &L, &tabling::NODE, &WHOLE, &JSON],
        files: (1, 1),
        libraries: &[QUEUE],
        call: tabling::table,
    },
    Command {
        name: "nodes",
        usage: "[-p P] [--json]",
        about: "tells where each node's blocks stand in the work table, with L = 24",
        more: "For p = 2, 4 and 8, or P alone, the words that the table needs, and a line a node: its number,\n\
               name, height and places, seven words each, and the first and the last word of its part.\n\
               The first words are the constants OTQ_NODE_STARTS of otq.h. In --json `starts` is a row of them,\n\
               with 0 for a node that the tree lacks.",
        choices: &[&P, &JSON],
        files: (0, 0),
        libraries: &[],
        call: locating::nodes,
    },
    Command {
        name: "trace",
        usage: "[-p P -L L] STEPS [--from N] [--to N] [--whole]",
        about: "tells what each record does",
        more: "A line a record: its number, process and named step, what it read, what it wrote or moved,\n\
               and whom it helped: the process that wrote the block, in a leaf or, with C4, in a node above.\n\
               A block that it meets is told with the record that wrote it, and whose that is.\n\
               It comes from the Rust version of the rules, whose table and answers are compared with the\n\
               proved library before anything is printed.",
        choices: &[&P, &L, &tracing::FROM, &tracing::TO, &WHOLE],
        files: (1, 1),
        libraries: &[QUEUE],
        call: tracing::trace,
    },
    Command {
        name: "make",
        usage: "-p P -L L --pace PACE --seed S [-o OUT]",
        about: "makes an exercise",
        more: "As text, with L operations of each process, about half of them puts; all of them end.",
        choices: &[&P, &L, &making::PACE, &making::SEED, &making::OUT],
        files: (0, 0),
        libraries: &[QUEUE],
        call: making::make,
    },
    Command {
        name: "encode",
        usage: "[--print] FILE",
        about: "writes the step records of a text exercise",
        more: "A text has a line a record or a run of steps: `put VALUE by PROCESS`, `take by PROCESS`,\n\
               `step PROCESS`, `step PROCESS xCOUNT`, or `raw` and 8 bytes in hexadecimal. Before them may\n\
               stand `processes P`, `operations L`, `answers BYTES` and `table WORDS`. A comment goes from\n\
               # to the end of its line.",
        choices: &[&coding::PRINT],
        files: (1, 1),
        libraries: &[],
        call: coding::encode,
    },
    Command {
        name: "decode",
        usage: "-p P -L L FILE",
        about: "writes the text exercise of step records",
        more: "With p and L in its heading, so that it plays alike.",
        choices: &[&P, &L],
        files: (1, 1),
        libraries: &[],
        call: coding::decode,
    },
    Command {
        name: "explain",
        usage: "[N|records]",
        about: "says what a refusal means and what to do, or how records are laid out",
        more: "Without a word it lists the refusals.",
        choices: &[],
        files: (0, 1),
        libraries: &[],
        call: explaining::explain,
    },
];

const STEPS: &str = "\
STEPS is a text exercise, whose heading gives p and L, or a file of binary step records, for which
-p and -L are needed. `-` is standard input.";

const BEGINS: &str = "\
BEGINS is as STEPS elsewhere, with begins alone: a text whose heading gives p and L, or a file of
binary step records, for which -p and -L are needed. `-` is standard input.";

const SHEET: &str = "\
SHEET is a price sheet of 1 to 8 bands: a text with a line a band, such as `up to 100: 2500` for deliveries
up to number 100 at 2500 cents for a hundred, or a file of binary records (`otq explain records`).
Deliveries after the last band cost its price. `-` is standard input.";

const EXIT: &str =
    "Exit status: 0 done or same, 1 the log differs, 2 a mistake in the command, a file or a text, or an\n\
     output that cannot be written, 3 refused.";

/// Does what the words say.
pub fn call(tool: &mut Tool, mut words: Vec<OsString>) -> Result<Status, Failure> {
    if words.is_empty() {
        return Err(Failure {
            message: overview(),
            ..Failure::mistake("")
        });
    }
    let first = words.remove(0);
    match first.to_str() {
        Some("--help" | "-h" | "help") => help(tool, &words),
        Some("--version" | "-V") => version(tool),
        name => match COMMANDS.iter().find(|command| Some(command.name) == name) {
            Some(command) => command.start(tool, words),
            None => {
                let first = shown(&first);
                let told = format!("there is no command `{first}`; `otq --help` lists them");
                Err(Failure::mistake(told))
            }
        },
    }
}

impl Command {
    fn start(&self, tool: &mut Tool, words: Vec<OsString>) -> Result<Status, Failure> {
        let mut options = words.iter().take_while(|word| *word != "--");
        if options.any(|word| word == "--help" || word == "-h") {
            tool.line(self.help())?;
            return Ok(Status::Done);
        }
        let given = Given::read(self.choices, words).map_err(|mistake| self.wrong(&mistake))?;
        let (least, most) = self.files;
        if given.files.len() < least {
            return Err(self.wrong("a file is missing"));
        }
        if given.files.len() > most {
            let extra = shown(&given.files[most]);
            return Err(self.wrong(&format!("`{extra}` is too much")));
        }
        if given.files.iter().filter(|file| *file == "-").count() > 1 {
            return Err(self.wrong("standard input can be read once"));
        }
        if let Some(missing) = self.libraries.iter().find(|library| !library.built) {
            return Err(Failure::mistake(missing.not_built));
        }
        (self.call)(tool, &given)
    }

    /// A mistake in the words of this command.
    fn wrong(&self, mistake: &str) -> Failure {
        let Command { name, usage, .. } = self;
        Failure::mistake(format!("{mistake}; usage: otq {name} {usage}"))
    }

    fn help(&self) -> String {
        let Command {
            name,
            usage,
            about,
            more,
            ..
        } = self;
        let mut help = format!("otq {name} {usage}\n\n{about}\n{more}\n");
        for choice in self.choices {
            let option = format!("{} {}", choice.name, choice.value.unwrap_or(""));
            help += &format!(
                "\n  {option:<14}{}",
                choice.about.replace('\n', "\n                ")
            );
        }
        for (file, about) in [("STEPS", STEPS), ("BEGINS", BEGINS), ("SHEET", SHEET)] {
            if self.usage.contains(file) {
                help += &format!("\n\n{about}\n\n{EXIT}");
            }
        }
        help.trim_end().to_string()
    }
}

fn help(tool: &mut Tool, words: &[OsString]) -> Result<Status, Failure> {
    let command = COMMANDS
        .iter()
        .find(|command| words.first().is_some_and(|word| word == command.name));
    tool.line(command.map_or_else(overview, Command::help))?;
    Ok(Status::Done)
}

fn overview() -> String {
    let mut text =
        "otq plays the steps of a shared queue, lists their order, shows what each step did and which blocks\n\
         it left, checks a log, delivers dictionary terms, prices deliveries, and forecasts what a list needs.\n"
            .to_string();
    for Command {
        name, usage, about, ..
    } in &COMMANDS
    {
        text += &format!("\n  otq {name:<9}{usage}\n               {about}");
    }
    format!(
        "{text}\n\n`otq COMMAND --help` says more of one.\n\n\
         {STEPS} BEGINS is the same with begins alone.\n\n{SHEET}\n\n{EXIT}"
    )
}

fn version(tool: &mut Tool) -> Result<Status, Failure> {
    let with = |library: &Library| if library.built { "with" } else { "without" };
    tool.line(format!(
        "otq {}, {} the proved library, {} the proved delivery desk, {} the proved price sheet",
        env!("CARGO_PKG_VERSION"),
        with(&QUEUE),
        with(&DESK),
        with(&PRICE)
    ))?;
    Ok(Status::Done)
}
