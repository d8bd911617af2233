//! Runs of the compiled library in which other words stand in the table while a chosen record is
//! played.
//!
//! The records stand in pages that may not be read, so that each load of a record faults before
//! its step is played. The handler restores the table if it was changed for another record, changes
//! it if this record is a chosen one, opens the pages and sets the processor's trap flag. So a trap
//! follows the load, and its handler closes the pages again.

use crate::pages::{Access, Pages};
use compare::calls::Input;
use reference::records::STEP_RECORD_BYTES;
use reference::run::RunResult;
use std::collections::BTreeMap;
use std::process::abort;
use std::ptr::{copy_nonoverlapping, null_mut};
use std::slice::from_raw_parts_mut;
use std::sync::atomic::{AtomicPtr, AtomicUsize, Ordering::SeqCst};
use std::sync::{Mutex, PoisonError};

// Numbers and layouts of Linux on x86-64 with glibc.
const SIGTRAP: i32 = 5;
const SIGSEGV: i32 = 11;
const SIG_DFL: usize = 0;
const SA_SIGINFO: i32 = 4;
const STANDARD_ERROR: i32 = 2;
/// In the flags register: a trap after the next instruction.
const TRAP_FLAG: u64 = 0x100;

/// `struct sigaction`.
#[repr(C)]
struct Action {
    handler: usize,
    mask: [u64; 16],
    flags: i32,
    restorer: usize,
}

/// The beginning of `siginfo_t` as a fault has it.
#[repr(C)]
struct Fault {
    numbers: [i32; 4],
    address: usize,
}

/// The beginning of `ucontext_t`: five words, 17 registers, the flags register.
#[repr(C)]
struct Context {
    before: [u64; 5 + 17],
    flags: u64,
}

/// `OtqRun`.
#[repr(C)]
struct Ran {
    refusal: u32,
    taken: u64,
    answers: u64,
}

extern "C" {
    fn sigaction(signal: i32, new: *const Action, old: *mut Action) -> i32;
    fn raise(signal: i32) -> i32;
    fn write(file: i32, bytes: *const u8, count: usize) -> isize;
    // Called here and not by `otq::run`, which takes a `&mut` of the table: nothing else may write
    // there as long as that lives.
    fn otq_run(
        p: u32,
        l: u32,
        records: *const u8,
        records_len: usize,
        table: *mut u32,
        table_len: usize,
        answers: *mut u8,
        answers_len: usize,
    ) -> Ran;
}

/// Other words for the time of one record.
pub struct Other {
    /// As many as the table has.
    pub words: Vec<u32>,
    /// Those that stay what they are in the table.
    pub kept: Vec<usize>,
}

/// What was done to the table of a run.
#[derive(Clone, Copy, Default, PartialEq, Eq, Debug)]
pub struct Changes {
    /// Records that met other words.
    pub records: usize,
    /// The words that were other than the table's own, summed over these records.
    pub words: usize,
    /// Those among them whose step wrote in the table.
    pub written: usize,
}

/// What the handlers need. They allocate nothing, so all room is here from the start.
struct Guarded {
    pages: Pages,
    table: *mut u32,
    /// By record.
    others: BTreeMap<usize, Other>,
    /// The record for which other words stand in the table now.
    under: Option<usize>,
    /// The table's own words and the other ones, while these stand in the table.
    own: Vec<u32>,
    other: Vec<u32>,
    changes: Changes,
}

/// The run, and from where to where its pages are. The handlers are those of the whole process, so
/// they also see the faults of other tests' threads, which must not touch the run.
static RUN: AtomicPtr<Guarded> = AtomicPtr::new(null_mut());
static START: AtomicUsize = AtomicUsize::new(0);
static END: AtomicUsize = AtomicUsize::new(0);
static ONE_AT_A_TIME: Mutex<()> = Mutex::new(());

impl Guarded {
    /// A record is about to be read.
    unsafe fn comes(&mut self, record: usize) {
        if self.under == Some(record) {
            return;
        }
        self.restore();
        let Some(other) = self.others.get(&record) else {
            return;
        };
        let table = from_raw_parts_mut(self.table, self.own.len());
        self.own.copy_from_slice(table);
        self.other.copy_from_slice(&other.words);
        for &word in &other.kept {
            self.other[word] = table[word];
        }
        table.copy_from_slice(&self.other);
        self.under = Some(record);
        self.changes.records += 1;
        let both = self.other.iter().zip(&self.own);
        self.changes.words += both.filter(|(other, own)| other != own).count();
    }

    /// The table's own words again, if others stand there.
    unsafe fn restore(&mut self) {
        if self.under.take().is_some() {
            let table = from_raw_parts_mut(self.table, self.own.len());
            self.changes.written += usize::from(*table != self.other);
            table.copy_from_slice(&self.own);
        }
    }

    unsafe fn allow(&self, access: Access) {
        if !self.pages.allow(access, 0, self.pages.length()) {
            // The same load would fault for ever.
            abort();
        }
    }
}

/// Said before such a fault ends the test program, since no test is then named.
const FOREIGN: &[u8] = b"a fault outside of the records, during a run of c3_words\n";

/// A load in the pages. Any other fault comes again and ends the process, as it does by default.
unsafe extern "C" fn on_fault(signal: i32, fault: *const Fault, context: *mut Context) {
    let (start, end) = (START.load(SeqCst), END.load(SeqCst));
    let address = (*fault).address;
    if !(start..end).contains(&address) {
        write(STANDARD_ERROR, FOREIGN.as_ptr(), FOREIGN.len());
        handle(signal, SIG_DFL);
        return;
    }
    let run = &mut *RUN.load(SeqCst);
    run.comes((address - start) / STEP_RECORD_BYTES);
    run.allow(Access::Read);
    (*context).flags |= TRAP_FLAG;
}

/// The load is done. A trap without the flag has another cause and ends the process, as it does by
/// default.
unsafe extern "C" fn on_trap(signal: i32, _: *const Fault, context: *mut Context) {
    if (*context).flags & TRAP_FLAG == 0 {
        handle(signal, SIG_DFL);
        raise(signal);
        return;
    }
    (*RUN.load(SeqCst)).allow(Access::Closed);
    (*context).flags &= !TRAP_FLAG;
}

/// Sets the handler of a signal and gives the former one.
unsafe fn handle(signal: i32, handler: usize) -> Action {
    let action = |handler, flags| Action {
        handler,
        mask: [0; 16],
        flags,
        restorer: 0,
    };
    let mut former = action(SIG_DFL, 0);
    if sigaction(signal, &action(handler, SA_SIGINFO), &mut former) != 0 {
        abort();
    }
    former
}

/// Pages that hold the records.
unsafe fn pages_of(records: &[u8]) -> Pages {
    let pages = Pages::new(records.len());
    copy_nonoverlapping(records.as_ptr(), pages.start(), records.len());
    pages
}

/// A call while the pages are closed; the former handlers are back after it.
unsafe fn with_closed_pages(run: *mut Guarded, call: impl FnOnce() -> Ran) -> Ran {
    let start = (*run).pages.start() as usize;
    START.store(start, SeqCst);
    END.store(start + (*run).pages.length(), SeqCst);
    RUN.store(run, SeqCst);
    let former = [
        (SIGSEGV, handle(SIGSEGV, on_fault as *const () as usize)),
        (SIGTRAP, handle(SIGTRAP, on_trap as *const () as usize)),
    ];
    (*run).allow(Access::Closed);
    let ran = call();
    for (signal, action) in former {
        sigaction(signal, &action, null_mut());
    }
    (*run).restore();
    ran
}

/// Run of the compiled library, in which some records meet other words in the table.
pub fn run(
    input: Input,
    table: &mut [u32],
    answers: &mut [u8],
    others: BTreeMap<usize, Other>,
) -> (RunResult, Changes) {
    if !otq::BUILT {
        panic!("{}", otq::NOT_BUILT);
    }
    let Input { p, l, records } = input;
    let (words, bytes, room) = (table.len(), answers.as_mut_ptr(), answers.len());
    assert!(others.values().all(|other| other.words.len() == words));
    let lock = ONE_AT_A_TIME.lock();
    let _only = lock.unwrap_or_else(PoisonError::into_inner);
    // SAFETY: pages and buffers outlive the call. During it they are used by `otq_run` alone and by
    // the handlers, which interrupt it in this thread.
    unsafe {
        let pages = pages_of(records);
        let (first, table) = (pages.start(), table.as_mut_ptr());
        let run = Box::into_raw(Box::new(Guarded {
            pages,
            table,
            others,
            under: None,
            own: vec![0; words],
            other: vec![0; words],
            changes: Changes::default(),
        }));
        let ran = with_closed_pages(run, || {
            otq_run(p, l, first, records.len(), table, words, bytes, room)
        });
        (result_of(ran), Box::from_raw(run).changes)
    }
}

fn result_of(ran: Ran) -> RunResult {
    RunResult {
        refusal: ran.refusal,
        taken: ran.taken,
        answers: ran.answers,
    }
}
