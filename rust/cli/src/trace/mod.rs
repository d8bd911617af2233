//! A list as the Rust version plays it, record by record, and its comparison with the library.
//!
//! A trace needs heads and step names, which the library's table does not hold.

mod told;

use crate::failure::Failure;
use crate::list::List;
use otq::Played;
use reference::machine::Machine;
use reference::records::Answer;
use reference::run::{test_record, Room};
use reference::tree::Shape;
use told::Told;

/// About how many records and table words the comparisons of one trace may cost.
const BUDGET: u64 = 50_000_000;

/// The Rust version after some records of a list.
pub struct Traced<'a> {
    list: &'a List,
    machine: Machine,
    answers: Vec<Answer>,
    /// Records played.
    played: usize,
}

impl Traced<'_> {
    pub fn start(list: &List) -> Result<Traced<'_>, Failure> {
        let shape = Shape::new(list.p(), list.l());
        let shape = shape.map_err(|refusal| disagree(0, &format!("{refusal:?}")))?;
        Ok(Traced {
            list,
            machine: Machine::start(shape),
            answers: Vec::new(),
            played: 0,
        })
    }

    /// Plays the next record, which the library takes, and tells what it did.
    pub fn next(&mut self) -> Result<String, Failure> {
        let bytes = &self.list.records()[self.played];
        let room = Room::Bytes(self.list.heading().answer_bytes());
        let record = test_record(&self.machine, bytes, self.answers.len(), room);
        let number = self.played + 1;
        let record = record.map_err(|refusal| disagree(number, &format!("{refusal:?}")))?;
        let Told {
            name,
            words,
            answer,
        } = told::play(&mut self.machine, self.list, number as u32, record);
        self.answers.extend(answer);
        self.played = number;
        let process = record.process;
        Ok(format!(
            "{number:>6}  process {process}  {name:<5}  {words}"
        ))
    }

    /// Compares table and answers of the records so far with those of the library.
    pub fn compare(&self) -> Result<(), Failure> {
        let proved = self.list.run_first(self.played);
        match self.first_difference(&proved) {
            None => Ok(()),
            Some(what) => Err(disagree(self.played, what)),
        }
    }

    /// What differs first.
    fn first_difference(&self, proved: &Played) -> Option<&'static str> {
        let mut table = vec![0; proved.table.len()];
        self.machine.memory.tree.write_words(&mut table);
        let answers = self.answers.iter().flat_map(|answer| answer.bytes());
        if proved.run.refusal.is_some() || proved.run.taken != self.played as u64 {
            Some("the records taken")
        } else if table != proved.table {
            Some("the table")
        } else if !answers.eq(proved.answers.iter().copied()) {
            Some("the answers")
        } else {
            None
        }
    }
}

fn disagree(record: usize, what: &str) -> Failure {
    Failure::mistake(format!(
        "no trace: at record {record} the Rust version and the proved library disagree on {what}"
    ))
}

/// Compares both while records `from` to `to` are played, counted from 1: after every so many records
/// and after the last. Gives how many they are.
pub fn compare(list: &List, from: usize, to: usize) -> Result<usize, Failure> {
    let cost = (to - from + 1) as u64 * (to + list.heading().table_words()) as u64;
    let every = 1 + (cost / BUDGET) as usize;
    let mut traced = Traced::start(list)?;
    for number in 1..=to {
        traced.next()?;
        if number == to || number >= from && (number - from).is_multiple_of(every) {
            traced.compare()?;
        }
    }
    Ok(every)
}

#[cfg(test)]
mod tests;
