//! What is told of a refused list.

use super::{Place, Reason, Refused};
use crate::files::Name;
use crate::list::List;
use crate::notation::Record;
use crate::words::{count, torn};
use otq::{Answer, Refusal, Run, Step};

/// What a list was given to: to a call that plays it, to the forecast, or to the desk.
#[derive(Clone, Copy, PartialEq, Eq)]
enum Call {
    Play,
    Forecast,
    Desk { licensed: u32 },
}

impl Refused {
    /// The refusal of a run of the list, if there is one.
    pub fn of_run(list: &List, run: &Run) -> Option<Refused> {
        let refusal = run.refusal?;
        Some(Refused::of_list(list, refusal, run.taken as usize))
    }

    /// A refusal of a list of which so many records were taken.
    pub fn of_list(list: &List, refusal: Refusal, taken: usize) -> Refused {
        Refused::new(list, Call::Play, refusal, taken)
    }

    /// A refusal of a forecast which so many begins passed.
    pub fn of_begins(list: &List, refusal: Refusal, taken: usize) -> Refused {
        Refused::new(list, Call::Forecast, refusal, taken)
    }

    /// A refusal of the desk of this licensed process, of a list of which so many records were taken.
    pub fn of_desk(
        list: &List,
        licensed: u32,
        refusal: dictionary::Refusal,
        taken: usize,
    ) -> Refused {
        let call = Call::Desk { licensed };
        let (record, standing, cause) = match refusal {
            dictionary::Refusal::Licence => {
                let given = format!("process {licensed} is licensed, and p is {}", list.p());
                let other = other_licence(list).or_else(|| other_numbers(list, call));
                (None, Some(given), other)
            }
            dictionary::Refusal::ForeignEntry => {
                let standing = foreign(list.records()[taken], licensed);
                (Some(taken), standing, other_licence(list))
            }
            dictionary::Refusal::OutputShort => (None, None, None),
            shared => {
                let of_queue = Refusal::from_number(shared.number());
                let of_queue = of_queue.expect("the queue has the desk's other refusals");
                return Refused::new(list, call, of_queue, taken);
            }
        };
        Refused {
            reason: Reason::of_desk(refusal),
            record: record.map(|record| Place::of_record(list, record)),
            standing,
            cause,
        }
    }

    fn new(list: &List, call: Call, refusal: Refusal, taken: usize) -> Refused {
        let of_record = [
            Refusal::IllFormed,
            Refusal::BeginWhileBusy,
            Refusal::StepWhileIdle,
            Refusal::BegunAll,
            Refusal::AnswersFull,
            Refusal::StepAmongBegins,
        ];
        let record = of_record.contains(&refusal).then_some(taken);
        Refused {
            reason: Reason::of_queue(refusal),
            record: record.map(|record| Place::of_record(list, record)),
            standing: match record {
                Some(record) => standing(list, call, refusal, record),
                None => given(list, refusal),
            },
            cause: cause(list, call, refusal),
        }
    }

    /// The refusal of a torn log with this name.
    pub fn of_log(list: &List, name: &Name, log: &[u8]) -> Refused {
        let torn = torn_but_whole(name, log.len(), Answer::BYTES, "answer", "checks");
        Refused {
            cause: Some(torn),
            ..Refused::of_list(list, Refusal::LogTorn, 0)
        }
    }
}

/// What a call was given that is turned down before its records; with the line of the heading.
fn given(list: &List, refusal: Refusal) -> Option<String> {
    let heading = list.heading();
    let (word, given) = match refusal {
        Refusal::Processes => ("processes", format!("p is {}", list.p())),
        Refusal::Operations => ("operations", format!("L is {}", list.l())),
        Refusal::TableShort => {
            let needed = otq::table_words(list.p(), list.l())?;
            let lent = count(heading.table_words(), "table word");
            ("table", format!("{lent} are lent, and {needed} are needed"))
        }
        _ => return None,
    };
    Some(match list.heading_line(word) {
        Some(line) => format!("{given}, {}:{line}", list.name),
        None => given,
    })
}

/// How the refused record meets its process, read off the records before it; of 8, whether the process
/// is also inside an operation is asked of the library.
fn standing(list: &List, call: Call, refusal: Refusal, record: usize) -> Option<String> {
    let bytes = list.records()[record];
    let process = bytes[0];
    let last = |begin: bool| {
        let of_process = |other: &Record| other[0] == process && (other[1] != 0) == begin;
        list.records()[..record].iter().rposition(of_process)
    };
    match refusal {
        Refusal::IllFormed => Some(ill_formed(bytes, list.p())),
        Refusal::BeginWhileBusy => last(true).map(|begin| {
            let number = begin + 1;
            format!("process {process} is still inside the operation that record {number} began")
        }),
        Refusal::StepWhileIdle => Some(match last(false) {
            None => format!("process {process} has begun nothing before"),
            Some(end) => {
                let number = end + 1;
                format!("the last operation of process {process} ended with record {number}")
            }
        }),
        Refusal::BegunAll => {
            let begun = count(list.l() as usize, "operation");
            let all = format!("process {process} has begun {begun}, and L is {}", list.l());
            // In a forecast no process is inside anything.
            let played = call != Call::Forecast;
            let inside = last(true).filter(|_| played && list.is_inside(process, record));
            Some(match inside {
                None => all,
                Some(begin) => {
                    let number = begin + 1;
                    format!("{all}; it is still inside the one that record {number} began")
                }
            })
        }
        _ => None,
    }
}

/// Who puts which entry.
fn foreign(record: Record, licensed: u32) -> Option<String> {
    let (process, term) = (record[0], term_put(record)?);
    Some(format!(
        "process {process} puts term {term}, and process {licensed} is licensed"
    ))
}

/// The term that a record puts, if that is an entry.
fn term_put([_, kind, _, _, value @ ..]: Record) -> Option<u32> {
    let value = (kind == 1).then(|| u32::from_le_bytes(value))?;
    dictionary::term(value)
}

/// What is wrong with an ill-formed record.
fn ill_formed(record: Record, p: u32) -> String {
    match record {
        [process, ..] if u32::from(process) >= p => {
            format!("process {process} is not below p, {p}")
        }
        [_, kind, ..] if kind > 2 => format!("kind {kind} is none of 0, 1 and 2"),
        [_, _, 0, 0, ..] => "it is no begin put, and its value is not 0".to_string(),
        _ => "its bytes 2 and 3 are not both 0".to_string(),
    }
}

/// What may have caused a refusal, where that is cheap to know.
fn cause(list: &List, call: Call, refusal: Refusal) -> Option<String> {
    if matches!(refusal, Refusal::RecordsTorn | Refusal::IllFormed) {
        if let Some(spoilt) = list.spoilt_text() {
            return Some(spoilt);
        }
    }
    match refusal {
        Refusal::RecordsTorn => {
            let does = match call {
                Call::Play | Call::Desk { .. } => "plays",
                Call::Forecast => "forecasts",
            };
            let length = list.bytes().len();
            let torn = torn_but_whole(&list.name, length, Step::BYTES, "record", does);
            Some(torn)
        }
        Refusal::StepAmongBegins => mostly_steps(list)
            .then(|| "it is a whole list, and a forecast is of its begins alone".to_string()),
        Refusal::AnswersFull => {
            let lent = list.heading().answer_bytes();
            let room = count(lent / Answer::BYTES, "answer");
            Some(format!(
                "the heading lends {lent} answer bytes, which have room for {room}"
            ))
        }
        Refusal::IllFormed if holds_answers(list) => {
            Some("the file holds answer records: it is a log, and not a list of steps".to_string())
        }
        Refusal::TableShort | Refusal::OutputShort | Refusal::LogTorn => None,
        _ => other_numbers(list, call),
    }
}

/// Where a file is torn, and what can be done with its whole records.
fn torn_but_whole(name: &Name, length: usize, size: usize, what: &str, does: &str) -> String {
    let torn = torn(length, size, what);
    match length / size {
        0 => format!("{torn} of {name}"),
        whole => format!("{torn} of {name}; --whole {does} the {whole}"),
    }
}

fn holds_answers(list: &List) -> bool {
    let (answers, torn) = list.bytes().as_chunks();
    let proper = |&answer: &[u8; Answer::BYTES]| Answer::try_from(answer).is_ok();
    torn.is_empty() && answers.iter().all(proper)
}

/// Whether a list has more steps than begins, as a list that is played to its end has.
fn mostly_steps(list: &List) -> bool {
    let records = list.records();
    2 * records.iter().filter(|record| record[1] == 0).count() > records.len()
}

/// Another p, another L, or both, with which the whole list is taken.
fn other_numbers(list: &List, call: Call) -> Option<String> {
    let (p, l) = (list.p(), list.l());
    let needed = most_begins(list);
    let tried = |l: u32| {
        let taken = [2, 4, 8].into_iter().filter(move |&p| match call {
            Call::Play => list.is_taken_with(p, l),
            Call::Forecast => list.is_forecast_with(p, l),
            Call::Desk { licensed } => list.is_delivered_with(p, l, licensed),
        });
        taken.map(move |p| (p, l))
    };
    let mut found: Vec<(u32, u32)> = tried(l).collect();
    if found.is_empty() && needed != l {
        found = tried(needed).collect();
        // If another L alone is enough, p is not in question.
        if found.contains(&(p, needed)) {
            found = vec![(p, needed)];
        }
    }
    let told: Vec<String> = found.iter().map(|&other| numbers(list, other)).collect();
    let told = told.join(" or ");
    (!found.is_empty()).then(|| format!("with {told} the whole list is taken"))
}

/// Another licensed process with which the whole list is taken: the one that puts entries, and of a list
/// without entries, which is taken with each process or with none, the lowest.
fn other_licence(list: &List) -> Option<String> {
    let mut processes = 0..list.p();
    let other = processes.find(|&other| list.is_delivered_with(list.p(), list.l(), other))?;
    let has_entries = list.records().iter().any(|&x| term_put(x).is_some());
    let puts = match has_entries {
        true => format!("process {other} alone puts entries"),
        false => "no process puts entries".to_string(),
    };
    Some(format!(
        "{puts}: with --licensed {other} the whole list is taken"
    ))
}

/// What has to be said to have another p and L.
fn numbers(list: &List, (p, l): (u32, u32)) -> String {
    let [processes, operations] = match list.is_text {
        true => [format!("`processes {p}`"), format!("`operations {l}`")],
        false => [format!("-p {p}"), format!("-L {l}")],
    };
    match (p == list.p(), l == list.l()) {
        (false, true) => processes,
        (true, false) => operations,
        _ => format!("{processes} {operations}"),
    }
}

/// The most begins of one process.
fn most_begins(list: &List) -> u32 {
    let mut begins = [0; 256];
    for record in list.records().iter().filter(|record| record[1] != 0) {
        begins[usize::from(record[0])] += 1;
    }
    begins.into_iter().max().unwrap_or(0)
}
