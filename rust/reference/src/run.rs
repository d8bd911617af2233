//! Run: plays a list of step records and writes the answer log.

use crate::machine::Machine;
use crate::process::Step;
use crate::records::{numbered, Act, Answer, StepRecord, ANSWER_RECORD_BYTES, STEP_RECORD_BYTES};
use crate::refusal::{number, Refusal};
use crate::tree::Shape;

#[derive(Clone, Copy, PartialEq, Eq, Debug)]
pub struct RunResult {
    /// The paper's number, 0 for none.
    pub refusal: u32,
    /// Records taken.
    pub taken: u64,
    /// Answers written.
    pub answers: u64,
}

/// Room for the answers of a list.
#[derive(Clone, Copy, PartialEq, Eq, Debug)]
pub enum Room {
    Bytes(usize),
    /// As if there were room for every answer; used by the calls without answer bytes.
    Unlimited,
}

/// What playing a list leaves, where records are refused with an R.
#[derive(Clone, PartialEq, Eq, Debug)]
pub struct Played<R = Refusal> {
    pub machine: Machine,
    pub refusal: Option<R>,
    pub taken: usize,
    pub answers: Vec<Answer>,
}

/// Tests 1 to 4, in that order.
pub fn accept(p: u32, l: u32, records: &[u8], table: &[u32]) -> Result<Shape, Refusal> {
    let shape = Shape::new(p, l)?;
    if table.len() < shape.words_needed() {
        return Err(Refusal::TableShort);
    }
    whole(records)?;
    Ok(shape)
}

/// Test 4.
pub fn whole(records: &[u8]) -> Result<(), Refusal> {
    match records.len().is_multiple_of(STEP_RECORD_BYTES) {
        true => Ok(()),
        false => Err(Refusal::RecordsTorn),
    }
}

/// The tests of one record: 5; then of a begin 8, 6, of a step 7, 9.
pub fn test_record(
    machine: &Machine,
    bytes: &[u8],
    answers: usize,
    room: Room,
) -> Result<StepRecord, Refusal> {
    let shape = machine.shape();
    let record = StepRecord::read(bytes, shape.p()).ok_or(Refusal::IllFormed)?;
    let idle = machine.idle(record.process);
    match record.act {
        Act::Begin(_) if machine.process(record.process).begun == shape.l() => {
            Err(Refusal::BegunAll)
        }
        Act::Begin(_) if !idle => Err(Refusal::BeginWhileBusy),
        Act::Step if idle => Err(Refusal::StepWhileIdle),
        Act::Step if machine.next_step(record.process) == Some(Step::Q) && full(answers, room) => {
            Err(Refusal::AnswersFull)
        }
        _ => Ok(record),
    }
}

/// Whether fewer than 16 answer bytes are left.
fn full(answers: usize, room: Room) -> bool {
    match room {
        Room::Unlimited => false,
        Room::Bytes(bytes) => bytes - answers * ANSWER_RECORD_BYTES < ANSWER_RECORD_BYTES,
    }
}

/// One record that has passed its tests, with its number in the list; the answer if it is a Q.
pub fn play_record(machine: &mut Machine, number: u32, record: StepRecord) -> Option<Answer> {
    match record.act {
        Act::Step => machine.step(record.process, number),
        Act::Begin(operation) => {
            machine.begin(record.process, operation);
            None
        }
    }
}

/// Plays whole records from the start state up to the first refused one.
pub fn play(shape: Shape, records: &[u8], room: Room) -> Played {
    play_by(shape, records, |machine, bytes, answers| {
        test_record(machine, bytes, answers, room)
    })
}

/// The same by any tests of a record, which are given its bytes and how many answers there are.
pub fn play_by<R>(
    shape: Shape,
    records: &[u8],
    test: impl Fn(&Machine, &[u8], usize) -> Result<StepRecord, R>,
) -> Played<R> {
    let mut played = Played {
        machine: Machine::start(shape),
        refusal: None,
        taken: 0,
        answers: Vec::new(),
    };
    for (number, bytes) in numbered(records) {
        match test(&played.machine, bytes, played.answers.len()) {
            Ok(record) => {
                let answer = play_record(&mut played.machine, number, record);
                played.answers.extend(answer);
                played.taken += 1;
            }
            Err(refusal) => {
                played.refusal = Some(refusal);
                break;
            }
        }
    }
    played
}

/// Plays with room for every answer and leaves the work table as Run does; for
/// the calls that have no answer bytes.
pub fn play_into(shape: Shape, records: &[u8], table: &mut [u32]) -> Played {
    let played = play(shape, records, Room::Unlimited);
    played.machine.memory.tree.write_words(table);
    played
}

pub fn run(p: u32, l: u32, records: &[u8], table: &mut [u32], answers: &mut [u8]) -> RunResult {
    let shape = match accept(p, l, records, table) {
        Ok(shape) => shape,
        Err(refusal) => {
            return RunResult {
                refusal: number(Some(refusal)),
                taken: 0,
                answers: 0,
            }
        }
    };
    let played = play(shape, records, Room::Bytes(answers.len()));
    // Every needed word is written, so what the table held before is cleared.
    played.machine.memory.tree.write_words(table);
    for (answer, place) in played
        .answers
        .iter()
        .zip(answers.chunks_exact_mut(ANSWER_RECORD_BYTES))
    {
        place.copy_from_slice(&answer.bytes());
    }
    RunResult {
        refusal: number(played.refusal),
        taken: played.taken as u64,
        answers: played.answers.len() as u64,
    }
}
