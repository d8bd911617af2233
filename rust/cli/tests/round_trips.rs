//! Text to records and back, records to text and back.

use cli::notation::{lines, Exercise, MOST, MOST_PLAYED};
use reference::lists::List;
use reference::random::Random;

fn decode(records: &[u8]) -> String {
    let (whole, torn) = records.as_chunks();
    assert!(torn.is_empty());
    lines(whole).map(|line| format!("{line}\n")).collect()
}

fn encode(text: &str) -> Exercise {
    Exercise::read(text.as_bytes()).unwrap()
}

/// Records decoded and encoded again are the same.
fn assert_returns(records: &[u8]) {
    let text = decode(records);
    assert_eq!(encode(&text).records, records, "{text}");
}

/// The canonical text of a text, which is its own canonical text.
fn canonical(text: &str) -> String {
    let canonical = decode(&encode(text).records);
    assert_eq!(decode(&encode(&canonical).records), canonical);
    canonical
}

#[test]
fn every_form_is_read() {
    let text =
        "operations 3\r\n\tput 7 by 0#no space\n\n  # a comment\nstep 0 x2\ntake  by  1\nstep 1";
    let exercise = encode(text);
    let list = List::new().put(0, 7).steps(0, 2).take(1).steps(1, 1);
    assert_eq!(exercise.records, list.bytes());
    assert_eq!((exercise.heading.p(), exercise.heading.l()), (4, 3));
}

#[test]
fn one_canonical_text() {
    let text =
        "processes 2\nput 007 by 00 # seven\nstep 0\nstep 0 x1\nstep 0 x003\nstep 1\ntake by 1\n";
    let short = "put 7 by 0\nstep 0 x5\nstep 1\ntake by 1\n";
    assert_eq!(canonical(text), short);
    assert_eq!(canonical(""), "");
}

/// Raw bytes of a record that another line can say, and of one that none can.
#[test]
fn raw_records() {
    let text =
        "raw 00 00 00 00 00 00 00 00\nraw 01 01 00 00 FF ff 00 00\nraw 00 03 00 0A 00 00 00 00\n";
    let short = "step 0\nput 65535 by 1\nraw 00 03 00 0a 00 00 00 00\n";
    assert_eq!(canonical(text), short);
}

/// Equal records follow each other in one line only if they are steps.
#[test]
fn equal_begins_stay_apart() {
    let text = "put 1 by 0\nput 1 by 0\ntake by 0\ntake by 0\n";
    assert_eq!(canonical(text), text);
    let raw = "raw 00 04 00 00 00 00 00 00\n".repeat(2);
    assert_eq!(canonical(&raw), raw);
}

#[test]
fn more_steps_than_one_line_says() {
    let records = [3, 0, 0, 0, 0, 0, 0, 0].repeat(MOST as usize + 1);
    assert_eq!(decode(&records), "step 3 x1000000\nstep 3\n");
}

/// More records than any list that is taken whole are read, and not kept.
#[test]
fn more_steps_than_are_played() {
    let most = format!("put 1 by 0\nstep 0 x{}\n", MOST_PLAYED - 1);
    let exercise = encode(&most);
    assert_eq!(
        (exercise.records.len(), exercise.longer),
        (8 * MOST_PLAYED, false)
    );
    assert_eq!(exercise.line_of(MOST_PLAYED - 1), Some(2));
    let more = encode(&format!("{most}step 0\ntake by 1\n"));
    assert_eq!((&more.records, more.longer), (&exercise.records, true));
    assert_eq!(more.line_of(MOST_PLAYED), None);
    assert!(Exercise::read(format!("{most}step 0\ntake\n").as_bytes()).is_err());
}

#[test]
fn random_bytes() {
    let mut random = Random::new(1);
    for count in 0..2000 {
        let records: Vec<u8> = (0..count % 40)
            .flat_map(|_| random.next().to_le_bytes())
            .collect();
        assert_returns(&records);
    }
}

/// Bytes that are mostly zero or small, so that every kind of line comes up, runs of steps too.
#[test]
fn random_records() {
    let mut random = Random::new(2);
    for _ in 0..2000 {
        let records: Vec<u8> = (0..random.below(60))
            .flat_map(|_| small_record(&mut random))
            .collect();
        assert_returns(&records);
        let text = decode(&records);
        assert_eq!(canonical(&text), text);
    }
}

fn small_record(random: &mut Random) -> [u8; 8] {
    let mut record = [0; 8];
    record[0] = random.below(3) as u8;
    if random.chance(1, 3) {
        record[1] = random.below(4) as u8;
        record[4] = random.below(3) as u8;
    }
    if random.chance(1, 16) {
        record[random.below(8) as usize] = random.below(256) as u8;
    }
    record
}
