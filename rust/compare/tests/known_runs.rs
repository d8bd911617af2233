//! The known runs M1 to M11 on the compiled library.

use reference::known_runs::known_runs;

use crate::support::compare_amply;

#[test]
fn results_and_answers() {
    for known in known_runs() {
        let (mut table, mut answers) = (vec![9; known.words], vec![9; known.bytes]);
        let run = otq::run(known.p, known.l, &known.list, &mut table, &mut answers);
        let number = run.refusal.map_or(0, otq::Refusal::number);
        let result = (number, run.taken, run.answers);
        let expected = known.result;
        let expected = (expected.refusal, expected.taken, expected.answers);
        assert_eq!(result, expected, "{}", known.name);
        let mut bytes: Vec<u8> = known.answers.iter().flat_map(|a| a.bytes()).collect();
        bytes.resize(known.bytes, 9);
        assert_eq!(answers, bytes, "{}", known.name);
    }
}

#[test]
fn tables_and_other_calls() {
    for known in known_runs() {
        compare_amply(known.p, known.l, &known.list);
    }
}
