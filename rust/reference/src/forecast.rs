//! Forecast: what a list will need, told from its begins before it runs.

use crate::demand3::step_limit;
use crate::records::{Act, StepRecord, ANSWER_RECORD_BYTES, STEP_RECORD_BYTES};
use crate::refusal::{number, Refusal};
use crate::run::whole;
use crate::tree::Shape;

#[derive(Clone, Copy, Default, PartialEq, Eq, Debug)]
pub struct ForecastResult {
    /// The paper's number, 0 for none; with any other the rest is zeros.
    pub refusal: u32,
    /// Words of the work table.
    pub words: u64,
    /// Answer bytes; exact if every operation finishes.
    pub answer_bytes: u64,
    /// A limit on the records of any run of these begins.
    pub records: u64,
}

/// Nothing is run and no table is lent.
pub fn forecast(p: u32, l: u32, begins: &[u8]) -> ForecastResult {
    match needs(p, l, begins) {
        Ok(result) => result,
        Err(refusal) => ForecastResult {
            refusal: number(Some(refusal)),
            ..ForecastResult::default()
        },
    }
}

/// Most records of one operation, 40H + 2: its begin and its own steps.
pub fn record_limit(shape: Shape) -> u32 {
    1 + step_limit(shape)
}

/// The records that are no steps, in order: those of a kind other than 0. A torn
/// end is left out.
pub fn begins_of(records: &[u8]) -> Vec<u8> {
    let whole_records = records.chunks_exact(STEP_RECORD_BYTES);
    whole_records
        .filter(|r| r[1] != 0)
        .flatten()
        .copied()
        .collect()
}

/// Tests 1, 2 and 4, then those of each record; then what the begins need.
fn needs(p: u32, l: u32, begins: &[u8]) -> Result<ForecastResult, Refusal> {
    let shape = Shape::new(p, l)?;
    whole(begins)?;
    let count = count_begins(shape, begins)?;
    Ok(ForecastResult {
        refusal: number(None),
        words: shape.words_needed() as u64,
        answer_bytes: count * ANSWER_RECORD_BYTES as u64,
        records: count * u64::from(record_limit(shape)),
    })
}

/// The number of begins, or the first refusal. The tests of one record: 5, 12, 8.
fn count_begins(shape: Shape, begins: &[u8]) -> Result<u64, Refusal> {
    let mut begun = vec![0; shape.p() as usize];
    for bytes in begins.chunks_exact(STEP_RECORD_BYTES) {
        let record = StepRecord::read(bytes, shape.p()).ok_or(Refusal::IllFormed)?;
        if record.act == Act::Step {
            return Err(Refusal::StepAmongBegins);
        }
        let own = &mut begun[record.process as usize];
        if *own == shape.l() {
            return Err(Refusal::BegunAll);
        }
        *own += 1;
    }
    Ok(begun.into_iter().map(u64::from).sum())
}
