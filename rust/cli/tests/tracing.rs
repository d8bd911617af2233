//! `otq trace`.

use crate::support::{assert_fails, file, otq, with_numbers, written, STEPS, TEXT, TORN};

/// The second line, which says what was compared, and those of the records.
fn traced(words: &[&str]) -> (String, Vec<String>) {
    let out = written(words);
    let mut lines = out.lines().map(str::to_string);
    let first = "# By the Rust version of the rules, not by the proved library.";
    assert_eq!(lines.next().as_deref(), Some(first));
    (lines.next().expect("a line"), lines.collect())
}

#[test]
fn a_line_a_record() {
    let (compared, lines) = traced(&["trace", TEXT]);
    let expected =
        "# After each of records 1 to 124 the proved library has the same table and answers.";
    assert_eq!(compared, expected);
    assert_eq!(lines.len(), 124);
    for (index, line) in lines.iter().enumerate() {
        assert_eq!(
            line.trim_start().split(' ').next(),
            Some(&(index + 1).to_string()[..])
        );
    }
    assert_eq!(traced(&with_numbers("trace", &[STEPS])).1, lines);
}

/// The trace of a list has these lines.
fn assert_traced(list: &str, told: &[&str]) {
    let (_, lines) = traced(&["trace", list]);
    for line in told {
        assert!(lines.iter().any(|found| found == line), "{line}");
    }
}

/// Process 1 helps process 0, which stopped after its first step.
#[test]
fn help_in_words() {
    assert_traced("examples/known/M6.txt", &[
        "     1  process 0  begin  operation 1 of the process, a put of 9",
        "     2  process 0  A      reads the head of leaf 0: 1, and block 0 of leaf 0: 0 puts, 0 takes; writes block 1 of leaf 0: 1 put, 0 takes, value 9, number 2",
        "     8  process 1  R1     refreshes the root, reads the head of the root: 1",
        "    10  process 1  R3     looks at block 1 of leaf 0 (by record 2, process 0): present, so it helps to advance it",
        "    12  process 1  V2     sets super of block 1 of leaf 0 (by record 2, process 0) to 1",
        "    13  process 1  V3     raises the head of leaf 0 from 1 to 2: a help, moved the head of node 2 for process 0's block of record 2",
        "    15  process 1  R5     looks at block 2 of leaf 1: absent",
        "    16  process 1  C1     reads the head of leaf 0: 2, so the end left is 1",
        "    18  process 1  C3L    reads block 1 of leaf 0 (by record 2, process 0), the left child: 1 put, 0 takes",
        "    19  process 1  C3R    reads block 1 of leaf 1 (by record 4, process 1), the right child: 1 put, 0 takes; together 2 puts, 0 takes",
        "    20  process 1  C3N    reads block 0 of the root: 0 puts, 0 takes, size 0; there is more, so it builds a block: 2 puts, 0 takes, ends 1 and 1, size 2",
        "    21  process 1  C4     writes block 1 of the root: 2 puts, 0 takes, ends 1 and 1, size 2, number 21",
        "    22  process 1  V3     raises the head of the root from 1 to 2",
        "    23  process 1  Q      operation 1 is done, in root block 1, after 20 steps and 1 help",
        "    25  process 0  V2     finds super of block 1 of leaf 0 (by record 2, process 0) at 1 already, and leaves it",
        "    26  process 0  V3     finds the head of leaf 0 at 2 and not 1, and leaves it",
        "    36  process 0  C3N    reads block 1 of the root (by record 21, process 1): 2 puts, 0 takes, size 2; there is no more, so the refresh has succeeded",
        "    37  process 0  Q      operation 1 is done, in root block 1, after 15 steps and 0 helps",
    ]);
}

/// The block of an inner node is that of the process whose C4 wrote it: here of 1, since 0 comes to its
/// C4 too late.
#[test]
fn a_help_at_an_inner_node() {
    let text = "processes 4\nput 9 by 0\nstep 0 x14\nput 8 by 1\nstep 1 x15\nstep 0\n\
                put 7 by 2\nstep 2 x34\n";
    assert_traced(&file("traced-inner.txt", text.as_bytes()), &[
        "    31  process 1  C4     writes block 1 of node 2: 2 puts, 0 takes, ends 1 and 1, number 31",
        "    32  process 0  C4     finds block 1 of node 2 (by record 31, process 1) present, so the refresh has failed",
        "    51  process 2  V3     raises the head of node 3 from 1 to 2",
        "    57  process 2  V3     raises the head of node 2 from 1 to 2: a help, moved the head of node 2 for process 1's block of record 31",
        "    67  process 2  Q      operation 1 is done, in root block 1, after 34 steps and 1 help",
    ]);
}

/// A head that was raised between the look at the block and V3.
#[test]
fn a_help_that_does_not_count() {
    assert_traced(TEXT, &[
        "    31  process 1  R3     looks at block 2 of leaf 0 (by record 27, process 0): present, so it helps to advance it",
        "    34  process 1  V3     finds the head of leaf 0 at 3 and not 2, and leaves it: moved already, so it does not count as a help",
        "    56  process 1  Q      operation 1 is done, in root block 2, after 32 steps and 0 helps",
        "    84  process 0  V3     raises the head of leaf 1 from 3 to 4: a help, moved the head of node 3 for process 1's block of record 76",
        "    92  process 0  Q      operation 2 gets 30, in root block 2, after 20 steps and 1 help",
    ]);
}

/// The number, below 10, that follows a word of a line.
fn digit_after(word: &str, line: &str) -> usize {
    let (_, rest) = line.split_once(word).expect(line);
    rest[..1].parse().expect(line)
}

/// Of each operation that ends, its process and the helps that its lines tell. No process helps itself:
/// what it wrote, it has advanced before it refreshes.
fn helps_told(lines: &[String]) -> Vec<(usize, usize)> {
    let mut so_far = [0; 8];
    let mut ended = Vec::new();
    for line in lines {
        let process = digit_after("process ", line);
        if let Some((_, help)) = line.split_once(": a help, ") {
            assert_ne!(digit_after(" for process ", help), process, "{line}");
            so_far[process] += 1;
        }
        if line.contains("  Q  ") {
            ended.push((process, std::mem::take(&mut so_far[process])));
        }
    }
    ended
}

#[test]
fn helps_are_those_of_the_answers() {
    for (p, pace) in [
        ("2", "uniform"),
        ("4", "stall:V3"),
        ("8", "stall:V1"),
        ("8", "bursts:9"),
    ] {
        let made = written(&["make", "-p", p, "-L", "20", "--pace", pace, "--seed", "5"]);
        let list = file(&format!("traced-helps-{p}-{pace}.txt"), made.as_bytes());
        let told = helps_told(&traced(&["trace", &list]).1);
        let run = written(&["run", &list]);
        let answers = run.lines().filter(|line| !line.starts_with("end "));
        let answered: Vec<(usize, usize)> = answers
            .map(|line| line.split(' ').collect())
            .map(|words: Vec<&str>| (words[1].parse().unwrap(), words[4].parse().unwrap()))
            .collect();
        assert_eq!(told, answered, "{p} {pace}");
        assert!(told.iter().any(|&(_, helps)| helps > 0), "{p} {pace}");
    }
}

/// A take alone, whose block has other ends on the left and on the right.
#[test]
fn ends_that_differ() {
    assert_traced("examples/known/M4.txt", &[
        "    13  process 0  C3L    reads block 1 of leaf 0 (by record 2, process 0), the left child: 0 puts, 1 take",
        "    14  process 0  C3R    reads block 0 of leaf 1, the right child: 0 puts, 0 takes; together 0 puts, 1 take",
    ]);
}

#[test]
fn inner_nodes_and_second_refreshes() {
    let made = written(&[
        "make", "-p", "4", "-L", "4", "--pace", "stall:C4", "--seed", "1",
    ]);
    let (_, lines) = traced(&["trace", &file("traced.txt", made.as_bytes())]);
    for part in [
        "refreshes node 2, reads the head of node 2: ",
        "refreshes node 3 a second time, reads ",
        " present, so the refresh has failed",
        "there is no more, so the refresh has succeeded",
        " gets ",
    ] {
        assert!(lines.iter().any(|line| line.contains(part)), "{part}");
    }
}

#[test]
fn a_part_of_the_records() {
    let (_, all) = traced(&["trace", TEXT]);
    let (compared, part) = traced(&["trace", TEXT, "--from", "20", "--to", "25"]);
    assert_eq!(part, all[19..25]);
    assert!(
        compared.contains("After each of records 20 to 25 the proved library"),
        "{compared}"
    );
    let (_, end) = traced(&["trace", TEXT, "--from", "124", "--to", "200"]);
    assert_eq!(end, all[123..]);
    let (_, one) = traced(&["trace", TEXT, "--to", "1"]);
    assert_eq!(one, all[..1]);
}

#[test]
fn wrong_parts() {
    let order = "the first is from 1 on, and not above the last\n";
    assert_fails(
        &["trace", TEXT, "--from", "0"],
        2,
        &format!("otq: --from 0 --to 124: {order}"),
    );
    let words = ["trace", TEXT, "--from", "5", "--to", "4"];
    assert_fails(&words, 2, &format!("otq: --from 5 --to 4: {order}"));
    let message = "otq: --from 125: the library takes 124 records\n";
    assert_fails(&["trace", TEXT, "--from", "125"], 2, message);
    let (compared, lines) = traced(&["trace", &file("tracing.empty", b"")]);
    assert!(
        compared.ends_with("There was no record to compare."),
        "{compared}"
    );
    assert!(lines.is_empty());
}

#[test]
fn refused_lists() {
    assert_fails(&with_numbers("trace", &[TORN]), 3, "otq: refused with 4: ");
    let said = otq(&with_numbers("trace", &[TORN, "--whole"]));
    assert_eq!((said.status, said.out.lines().count()), (0, 63));
    let m9 = "examples/known/M9.txt";
    let said = otq(&["trace", m9]);
    assert_eq!((said.status, said.out.lines().count()), (3, 3), "{said:?}");
    assert!(said.err.starts_with("otq: refused with 6: "), "{said:?}");
    // Up to a record before the refused one, nothing is refused.
    assert_eq!(otq(&["trace", m9, "--to", "1"]).status, 0);
    assert_fails(
        &["trace", "examples/known/M11.txt"],
        3,
        "otq: refused with 3: ",
    );
    let full = otq(&["trace", "examples/known/M10.txt"]);
    assert_eq!((full.status, full.out.lines().count()), (3, 19), "{full:?}");
}

/// A list too long to compare both versions after every record.
#[test]
fn long_lists() {
    let made = written(&[
        "make", "-p", "2", "-L", "500", "--pace", "uniform", "--seed", "1",
    ]);
    let list = file("traced-long.txt", made.as_bytes());
    let (compared, lines) = traced(&["trace", &list]);
    assert!(lines.len() > 15_000);
    assert!(compared.contains(" of records 1 to "), "{compared}");
    assert!(
        compared.contains(", and the last, the proved library has the same"),
        "{compared}"
    );
}
