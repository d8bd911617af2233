//! What each refusal means, and what to do about it.

use super::Reason;
use dictionary::price;
use otq::Refusal;

/// A refusal, and what to do about it.
pub type Explained = (Reason, &'static str);

/// Every refusal in the order of the numbers. A number that the price sheet shares with the queue has here
/// the meaning for a list.
pub fn explained() -> Vec<Explained> {
    let queue = Refusal::ALL.map(|refusal| (Reason::of_queue(refusal), advice(refusal)));
    let desk = dictionary::Refusal::ALL.into_iter();
    let desk = desk.filter_map(|refusal| Some((Reason::of_desk(refusal), desk_advice(refusal)?)));
    let mut explained: Vec<_> = queue.into_iter().chain(desk).collect();
    explained.extend(price::Refusal::ALL.into_iter().filter_map(of_sheet_alone));
    explained.sort_by_key(|(reason, _)| reason.number);
    explained
}

/// What a number means for a price sheet, if it has another meaning for a list.
pub fn explained_of_sheet(number: u32) -> Option<Explained> {
    Refusal::from_number(number)?;
    price::Refusal::from_number(number).map(of_sheet)
}

fn of_sheet(refusal: price::Refusal) -> Explained {
    (Reason::of_sheet(refusal), sheet_advice(refusal))
}

fn of_sheet_alone(refusal: price::Refusal) -> Option<Explained> {
    let shared = Refusal::from_number(refusal.number());
    shared.is_none().then(|| of_sheet(refusal))
}

/// What to do about a refusal of the price sheet.
fn sheet_advice(refusal: price::Refusal) -> &'static str {
    match refusal {
        price::Refusal::Count => {
            "A sheet prices at most 4,000 deliveries. Give a count of 0 to 4,000. Deliveries count from 1 in \
             every bill, so that the bills of two parts may add up to another price than that of the whole."
        }
        price::Refusal::SheetTorn => {
            "The file was cut, or is no price sheet. Get it again; `otq explain records` says how a band is \
             laid out."
        }
        price::Refusal::Bands => {
            "A sheet has 1 to 8 bands, each of which ends after the one before it; the first may end at 0. Put \
             them into the order of their ends, join bands that have one price, or have the sheet mended by whoever \
             made it."
        }
        price::Refusal::PriceTooHigh => {
            "A price is in cents for a hundred deliveries, at most 1,000,000. Mend it, or have the sheet mended \
             by whoever made it."
        }
    }
}

/// What to do about a refusal that the desk alone has.
fn desk_advice(refusal: dictionary::Refusal) -> Option<&'static str> {
    match refusal {
        dictionary::Refusal::Licence => Some(
            "Give the process that the licence names, with --licensed. Processes are numbered from 0, \
             so that it is below p.",
        ),
        dictionary::Refusal::ForeignEntry => Some(
            "Values of 2147483648 or more are dictionary entries, and `otq desk` lets the licensed \
             process alone put them. Give the process that the licence names, with --licensed, or have \
             the list mended by whoever made it. Takes of entries are anyone's.",
        ),
        _ => None,
    }
}

/// What to do about a refusal of the queue; the desk's with the same number has the same advice.
fn advice(refusal: Refusal) -> &'static str {
    match refusal {
        Refusal::Processes => "Give the p that the list was made for, with -p or `processes`.",
        Refusal::Operations => "Give the L that the list was made for, with -L or `operations`.",
        Refusal::TableShort => "Take the line `table` out of the heading, or lend more words.",
        Refusal::RecordsTorn => {
            "The file was cut, or is no list of steps. Get it again, or take its whole records with \
             --whole; `otq show --as steps` shows where it is torn."
        }
        Refusal::IllFormed => {
            "The list was made for more processes, or by a program that writes other records. See \
             `otq explain records`, and `otq show --as steps`."
        }
        Refusal::BeginWhileBusy => {
            "A process ends an operation before it begins another. The list was made for fewer \
             processes, where an operation has fewer steps, or lacks steps; `otq trace --to N` shows \
             the steps up to record N. A process that has begun L is refused with 8 instead."
        }
        Refusal::StepWhileIdle => {
            "A process begins an operation before it steps. The list was made for more processes, \
             where an operation has more steps, or has steps too many; `otq trace` shows where the \
             operation ended."
        }
        Refusal::BegunAll => {
            "Give a larger L, with -L or `operations`, up to 500; no L takes a list in which a process begins \
             more than 500 operations. 8 is tested before 6: if the process of a list that is played is also \
             still inside its last operation, the list then stops with 6 at the same record."
        }
        Refusal::AnswersFull => "Take the line `answers` out of the heading, or lend more bytes.",
        Refusal::OutputShort => {
            "Lend an output of 8 bytes for each operation, and for the terms of the desk of 4 bytes for each \
             operation of the licensed process."
        }
        Refusal::LogTorn => {
            "The log was cut, or is no log. Get it again, or check its whole answers with --whole; \
             `otq show --as log` shows where it is torn."
        }
        Refusal::StepAmongBegins => {
            "`otq forecast` takes begins alone, one for each operation. `grep -v '^ *step' FILE | otq \
             forecast -` leaves out the step lines of a text; `otq decode` makes a text of records."
        }
    }
}
