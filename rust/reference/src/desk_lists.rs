//! Lists for the desk, worked by hand: those that it takes, with their terms, and those that it refuses.

use crate::desk::FIRST_ENTRY;
use crate::known_runs::m3_of;
use crate::lists::List;

/// A call with room for everything, and what it gives.
#[derive(Clone, PartialEq, Eq, Debug)]
pub struct DeskList {
    pub about: &'static str,
    pub p: u32,
    pub l: u32,
    pub licensed: u32,
    pub records: Vec<u8>,
    /// The paper's number, 0 for none.
    pub refusal: u32,
    /// How many records are taken: all, or those before the refused one.
    pub taken: usize,
    pub terms: Vec<u32>,
}

impl DeskList {
    /// A list of two processes, of which 0 is licensed, that gives nothing.
    fn new(about: &'static str, l: u32, list: List) -> DeskList {
        let records = list.bytes();
        DeskList {
            about,
            p: 2,
            l,
            licensed: 0,
            refusal: 0,
            taken: records.len() / 8,
            records,
            terms: Vec::new(),
        }
    }

    fn terms(self, terms: &[u32]) -> DeskList {
        let terms = terms.to_vec();
        DeskList { terms, ..self }
    }

    /// So many records are taken, and the next is refused.
    fn refused(self, refusal: u32, taken: usize) -> DeskList {
        DeskList {
            refusal,
            taken,
            ..self
        }
    }

    /// One more record, given by its bytes.
    fn then(mut self, record: [u8; 8]) -> DeskList {
        self.records.extend(record);
        self.taken += 1;
        self
    }
}

/// The entry with this term number.
pub fn entry(term: u32) -> u32 {
    FIRST_ENTRY + term
}

/// A term whose bytes differ.
const WIDE_TERM: u32 = 0x0403_0201;

/// A put by process 0 and its steps, alone with p = 2.
fn put(list: List, value: u32) -> List {
    list.put(0, value).steps(0, 17)
}

/// A take and its steps, alone with p = 2.
fn take(list: List, process: u32) -> List {
    list.take(process).steps(process, 17)
}

/// Entries 3 and 4, put by process 0 in turn.
fn two_entries() -> List {
    put(put(List::new(), entry(3)), entry(4))
}

/// Both takes stand in one root block, in which that of 0 comes first, and 1 finishes first.
fn right_first() -> List {
    let begun = two_entries().take(0).take(1).steps(0, 4).steps(1, 4);
    begun.steps(1, 13).steps(0, 11)
}

/// Entries 3 and 4 by process 2 of four, then takes by 1 and 0. They stand in one root block, in which
/// that of 1 comes first by its place below, and 0 finishes first.
fn by_place() -> DeskList {
    let puts = [3, 4].into_iter().fold(List::new(), |list, term| {
        list.put(2, entry(term)).steps(2, 31)
    });
    let takes = puts.take(1).steps(1, 18).take(0).steps(0, 31);
    let list = takes.steps(1, 11);
    DeskList {
        p: 4,
        licensed: 2,
        ..DeskList::new("takes in the order of places, not of processes", 2, list)
    }
}

/// Takes that finish in another order than the root's, or not at all.
fn by_takes() -> Vec<DeskList> {
    let before_q = two_entries().take(1).steps(1, 16);
    let overtaken = take(before_q.clone(), 0);
    let ended = overtaken.clone().steps(1, 1);
    vec![
        DeskList::new("the later take finishes first", 3, ended).terms(&[3, 4]),
        DeskList::new("the right take of a block finishes first", 3, right_first()).terms(&[3, 4]),
        by_place().terms(&[3, 4]),
        DeskList::new("a take before its Q", 3, before_q),
        DeskList::new("a take before its Q, and one after it", 3, overtaken).terms(&[4]),
        DeskList::new("a take of nothing first", 2, none_first()).terms(&[5]),
    ]
}

fn none_first() -> List {
    take(put(take(List::new(), 1), entry(5)), 1)
}

/// Values at the edges of the entries, equal ones, and puts of other processes and before their end.
fn by_values() -> Vec<DeskList> {
    let edges = [FIRST_ENTRY - 1, FIRST_ENTRY, u32::MAX];
    let at_edges = edges.into_iter().fold(List::new(), put);
    let at_edges = (0..3).fold(at_edges, |list, _| take(list, 1));
    let wide = take(put(List::new(), entry(WIDE_TERM)), 1);
    let alike = take(take(put(put(List::new(), entry(5)), entry(5)), 1), 1);
    let below = List::new().put(1, FIRST_ENTRY - 1).steps(1, 17);
    let mixed = take(take(put(below, entry(9)), 0), 1);
    // The put has written its root block; the head there is raised by the take.
    let unended = List::new().put(0, entry(6)).steps(0, 15);
    let unended = unended.take(1).steps(1, 29);
    vec![
        DeskList::new("a term whose bytes differ", 1, wide).terms(&[WIDE_TERM]),
        DeskList::new("below the first entry, it, and the last", 3, at_edges)
            .terms(&[0, u32::MAX - FIRST_ENTRY]),
        DeskList::new("an entry twice", 2, alike).terms(&[5, 5]),
        DeskList::new("a value of another process, and an entry", 2, mixed).terms(&[9]),
        DeskList::new("an entry and its take in one block", 1, m3_of(entry(5))).terms(&[5]),
        DeskList::new("an entry whose put is not finished", 1, unended).terms(&[6]),
    ]
}

/// Lists that the desk takes, with their terms.
pub fn taken() -> Vec<DeskList> {
    let by_last = List::new().put(1, entry(6)).steps(1, 17);
    let last_licensed = DeskList {
        licensed: 1,
        ..DeskList::new("the last process licensed", 2, take(by_last, 1)).terms(&[6])
    };
    let others = [DeskList::new("no records", 1, List::new()), last_licensed];
    [by_takes(), by_values(), others.into()].concat()
}

/// Lists that the desk refuses: entries of another process where no other test fails, and where one
/// does; and entries of the licensed process where one does.
pub fn refused() -> Vec<DeskList> {
    [foreign(), foreign_ill_formed(), one_of_two()].concat()
}

/// An entry put by process 1.
fn foreign_entry(list: List) -> List {
    list.put(1, entry(0))
}

const FOREIGN_ENTRY: [u8; 8] = [1, 1, 0, 0, 0, 0, 0, 128];

/// In well-formed records.
fn foreign() -> Vec<DeskList> {
    let busy = List::new().put(1, 7);
    let idle = busy.clone().steps(1, 17);
    let received = take(put(List::new(), entry(3)), 1);
    let again = List::new().put(0, entry(1)).put(0, entry(2));
    let of = |about, l, list, number, taken| DeskList::new(about, l, list).refused(number, taken);
    vec![
        of("14, the first entry", 1, foreign_entry(List::new()), 14, 0),
        of("14, the last entry", 1, List::new().put(1, u32::MAX), 14, 0),
        of("14 after a term", 2, foreign_entry(received), 14, 36),
        of("6 before 14", 2, foreign_entry(busy.clone()), 6, 1),
        of("8 before 14", 1, foreign_entry(idle.clone()), 8, 18),
        of(
            "8 before 14, inside an operation",
            1,
            foreign_entry(busy),
            8,
            1,
        ),
        of("14 of the last operation", 2, foreign_entry(idle), 14, 18),
        of("6 of the licensed process", 2, again, 6, 1),
        of("8 of the licensed process", 1, two_entries(), 8, 18),
    ]
}

/// In records that are ill-formed.
fn foreign_ill_formed() -> Vec<DeskList> {
    let of = |about, record| {
        DeskList::new(about, 2, List::new())
            .then(record)
            .refused(5, 0)
    };
    vec![
        of("5 before 14, byte 2", [1, 1, 1, 0, 0, 0, 0, 128]),
        of("5 before 14, byte 3", [1, 1, 0, 1, 0, 0, 0, 128]),
        of("5 before 14, process p", [2, 1, 0, 0, 0, 0, 0, 128]),
        of("5, a take with an entry", [1, 2, 0, 0, 0, 0, 0, 128]),
        of("5, a step with an entry", [1, 0, 0, 0, 0, 0, 0, 128]),
        of("5, kind 3 with an entry", [1, 3, 0, 0, 0, 0, 0, 128]),
    ]
}

/// Of two records that are refused, the earlier gives the number.
fn one_of_two() -> Vec<DeskList> {
    let idle_step = || List::new().steps(1, 1);
    let first = |about, list| DeskList::new(about, 1, list);
    vec![
        first("14, then 5", foreign_entry(List::new()))
            .then([9; 8])
            .refused(14, 0),
        first("14, then 7", foreign_entry(List::new()).steps(1, 1)).refused(14, 0),
        first("5, then 14", List::new())
            .then([9; 8])
            .then(FOREIGN_ENTRY)
            .refused(5, 0),
        first("7, then 14", foreign_entry(idle_step())).refused(7, 0),
    ]
}
