//! Records, lists and logs with something wrong.

use crate::random::Random;
use crate::records::STEP_RECORD_BYTES;

/// Numbers that p and L may not be.
pub const WRONG_P: [u32; 9] = [0, 1, 3, 5, 6, 7, 9, 16, u32::MAX];
pub const WRONG_L: [u32; 4] = [0, 501, 512, u32::MAX];

/// Ill-formed records of each sort, whatever the processes do.
pub fn ill_formed(p: u32) -> Vec<[u8; 8]> {
    let p = p as u8;
    let mut records = vec![
        [p, 0, 0, 0, 0, 0, 0, 0],
        [p, 1, 0, 0, 7, 0, 0, 0],
        [255, 2, 0, 0, 0, 0, 0, 0],
        [0, 3, 0, 0, 0, 0, 0, 0],
        [1, 255, 0, 0, 0, 0, 0, 0],
        [0, 1, 1, 0, 0, 0, 0, 0],
        [0, 2, 0, 128, 0, 0, 0, 0],
        [1, 0, 4, 0, 0, 0, 0, 0],
        [0, 0, 0, 1, 0, 0, 0, 0],
    ];
    for byte in 4..8 {
        for kind in [0, 2] {
            let mut record = [1, kind, 0, 0, 0, 0, 0, 0];
            record[byte] = 1;
            records.push(record);
        }
    }
    records
}

/// What is done to a list of records.
#[derive(Clone, Copy, PartialEq, Eq, Debug)]
enum Harm {
    /// Cut at any byte.
    Cut,
    /// One bit changed.
    Bit,
    /// A step or a begin put in, mostly out of turn.
    Insert,
    /// One record taken out.
    Remove,
    /// Random bytes in the place of one record.
    Noise,
}

const HARMS: [Harm; 8] = [
    Harm::Cut,
    Harm::Bit,
    Harm::Insert,
    Harm::Insert,
    Harm::Insert,
    Harm::Remove,
    Harm::Remove,
    Harm::Noise,
];

/// Leaves half of the lists as they are. Half of the others are harmed near their end, so that most
/// of their records are played.
pub fn harm_list(random: &mut Random, p: u32, list: &mut Vec<u8>) {
    let records = list.len() / 8;
    if records == 0 || random.chance(1, 2) {
        return;
    }
    let place = match random.chance(1, 2) {
        true => records - 1 - below(random, records.min(20)),
        false => below(random, records),
    };
    let (at, end) = (8 * place, 8 * place + 8);
    match random.pick(&HARMS) {
        Harm::Cut => list.truncate(at + below(random, 8)),
        Harm::Bit => flip(random, &mut list[at..end]),
        Harm::Insert => {
            let (process, kind) = (random.below(p) as u8, random.below(3) as u8);
            list.splice(at..at, [process, kind, 0, 0, 0, 0, 0, 0]);
        }
        Harm::Remove => drop(list.drain(at..end)),
        Harm::Noise => list[at..end].copy_from_slice(&random.next().to_le_bytes()),
    }
}

/// Leaves a quarter of the logs as they are; the others get a byte changed, or are shorter, longer
/// or torn.
pub fn harm_log(random: &mut Random, log: &mut Vec<u8>) {
    let answers = log.len() / 16;
    match random.below(8) {
        0 | 1 => {}
        2 | 3 => flip(random, log),
        4 => log.truncate(16 * below(random, answers)),
        5 => log.truncate(below(random, log.len())),
        6 => log.extend([0; 16]),
        _ => log.extend(random.next().to_le_bytes()),
    }
}

/// Puts a record in somewhere between those of a list, first or last.
pub fn insert(random: &mut Random, list: &mut Vec<u8>, record: [u8; STEP_RECORD_BYTES]) {
    let places = list.len() / STEP_RECORD_BYTES + 1;
    let at = STEP_RECORD_BYTES * below(random, places);
    list.splice(at..at, record);
}

/// Adds the start of a record, so that the last one is torn.
pub fn tear(random: &mut Random, list: &mut Vec<u8>) {
    let put = [0, 1, 0, 0, 7, 0, 0];
    list.extend(&put[..1 + below(random, 7)]);
}

/// Changes one bit, if there is one.
fn flip(random: &mut Random, bytes: &mut [u8]) {
    let at = below(random, bytes.len());
    if let Some(byte) = bytes.get_mut(at) {
        *byte ^= 1 << random.below(8);
    }
}

/// A number below the limit, 0 if that is 0.
pub fn below(random: &mut Random, limit: usize) -> usize {
    random.below(limit.max(1) as u32) as usize
}
