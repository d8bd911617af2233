//! Bytes of step, answer and order records, and every ill-formed byte.

use reference::records::{
    Act, Answer, Kind, Operation, OrderRecord, Outcome, StepRecord, ANSWER_RECORD_BYTES,
};

fn begin_put(process: u32, value: u32) -> StepRecord {
    let act = Act::Begin(Operation::Put(value));
    StepRecord { process, act }
}

#[test]
fn step_records_low_byte_first() {
    assert_eq!(begin_put(3, 0x0403_0201).bytes(), [3, 1, 0, 0, 1, 2, 3, 4]);
    let act = Act::Begin(Operation::Take);
    assert_eq!(
        StepRecord { process: 1, act }.bytes(),
        [1, 2, 0, 0, 0, 0, 0, 0]
    );
    let act = Act::Step;
    assert_eq!(
        StepRecord { process: 7, act }.bytes(),
        [7, 0, 0, 0, 0, 0, 0, 0]
    );
}

/// What the paper calls ill-formed, said byte by byte.
fn ill_formed(bytes: [u8; 8], p: u32) -> bool {
    let zero_value = bytes[4..].iter().all(|&byte| byte == 0);
    u32::from(bytes[0]) >= p
        || bytes[1] > 2
        || bytes[2] != 0
        || bytes[3] != 0
        || (bytes[1] != 1 && !zero_value)
}

#[test]
fn each_byte_at_each_value() {
    for p in [2, 4, 8] {
        for kind in 0..=2 {
            for index in 0..8 {
                for byte in 0..=255 {
                    let mut bytes = [1, kind, 0, 0, 0, 0, 0, 0];
                    bytes[index] = byte;
                    let read = StepRecord::read(&bytes, p);
                    assert_eq!(read.is_none(), ill_formed(bytes, p), "{bytes:?} p {p}");
                    if let Some(record) = read {
                        assert_eq!(record.bytes(), bytes);
                    }
                }
            }
        }
    }
}

#[test]
fn answer_records_low_byte_first() {
    let mut answer = Answer {
        process: 5,
        outcome: Outcome::Value(0x0807_0605),
        steps: 3,
        helps: 4,
        serial: 0x0c0b_0a09,
        root_block: 0x100f_0e0d,
    };
    let bytes = [5, 2, 3, 4, 5, 6, 7, 8, 9, 10, 11, 12, 13, 14, 15, 16];
    assert_eq!(answer.bytes(), bytes);
    assert_eq!(Answer::read(&bytes), Some(answer));
    answer.outcome = Outcome::Nothing;
    assert_eq!(answer.bytes()[..8], [5, 3, 3, 4, 0, 0, 0, 0]);
    answer.outcome = Outcome::PutDone;
    assert_eq!(answer.bytes()[..8], [5, 1, 3, 4, 0, 0, 0, 0]);
}

/// Each of the two counts has its own byte, at every value.
#[test]
fn steps_and_helps_of_answers() {
    for steps in 0..=255 {
        for helps in [0, 1, 12, 255] {
            let answer = Answer {
                process: 1,
                outcome: Outcome::PutDone,
                steps,
                helps,
                serial: 1,
                root_block: 1,
            };
            assert_eq!(answer.bytes()[2..4], [steps, helps]);
            assert_eq!(Answer::read(&answer.bytes()), Some(answer));
        }
    }
}

#[test]
fn bytes_that_are_no_answer() {
    for kind in 0..=255 {
        for value in [0, 1] {
            let mut bytes = [0; ANSWER_RECORD_BYTES];
            bytes[1] = kind;
            bytes[7] = value;
            let proper = kind == 2 || (value == 0 && (kind == 1 || kind == 3));
            assert_eq!(Answer::read(&bytes).is_some(), proper, "{bytes:?}");
        }
    }
}

#[test]
fn order_records_low_byte_first() {
    let mut record = OrderRecord {
        process: 6,
        kind: Kind::Take,
        serial: 0x0201,
        root_block: 0x0605_0403,
    };
    assert_eq!(record.bytes(), [6, 2, 1, 2, 3, 4, 5, 6]);
    record.kind = Kind::Put;
    assert_eq!(record.bytes(), [6, 1, 1, 2, 3, 4, 5, 6]);
}
