//! `otq table`.

use crate::support::{
    assert_fails, bytes, file, otq, path, with_numbers, written, STEPS, TEXT, TORN,
};

/// Process 1 writes the root's block, with both puts.
const M6: &str = "\
the root, node 1
  block  puts  takes  end left  end right  size  written by
      1     2      0         1          1     2  record 21, process 1
leaf 0, node 2
  block  puts  takes  super  operation  written by
      1     1      0      1  put 9      record 2, process 0
leaf 1, node 3
  block  puts  takes  super  operation  written by
      1     1      0      1  put 8      record 4, process 1
";

/// Node 2 is above leaves 0 and 1; on the right nothing happens.
const M2: &str = "\
the root, node 1
  block  puts  takes  end left  end right  size  written by
      1     1      0         1          0     1  record 30, process 0
      2     1      1         2          0     0  record 62, process 1
node 2
  block  puts  takes  super  end left  end right  written by
      1     1      0      1         1          0  record 16, process 0
      2     1      1      2         1          1  record 48, process 1
node 3: no block
leaf 0, node 4
  block  puts  takes  super  operation  written by
      1     1      0      1  put 7      record 2, process 0
leaf 1, node 5
  block  puts  takes  super  operation  written by
      1     0      1      2  take       record 34, process 1
leaf 2, node 6: no block
leaf 3, node 7: no block
";

#[test]
fn known_runs() {
    assert_eq!(written(&["table", "examples/known/M6.txt"]), M6);
    assert_eq!(written(&["table", "examples/known/M2.txt"]), M2);
    let none = "the root, node 1: no block\nleaf 0, node 2: no block\nleaf 1, node 3: no block\n";
    assert_eq!(written(&["table", "examples/known/M1.txt"]), none);
}

#[test]
fn text_and_records() {
    let of_text = written(&["table", TEXT]);
    assert_eq!(written(&with_numbers("table", &[STEPS])), of_text);
}

/// After A a block has no super; after V2 it has.
#[test]
fn super_that_is_not_set() {
    for (steps, shown) in [(1, "-"), (3, "1")] {
        let text = format!("processes 2\nput 70000 by 1\nstep 1 x{steps}\n");
        let list = file(&format!("table-super-{steps}.txt"), text.as_bytes());
        let lines = written(&["table", &list, "--node", "3"]);
        let last = lines.lines().last().unwrap();
        let expected = format!("      1     1      0      {shown}  put 70000  record 2, process 1");
        assert_eq!(last, expected);
    }
}

/// Columns are as wide as what stands in them.
#[test]
fn wide_columns() {
    let text = "processes 2\ntake by 0\nstep 0 x17\nput 4294967295 by 0\nstep 0\n";
    let list = file("table-wide.txt", text.as_bytes());
    let expected = "\
leaf 0, node 2
  block  puts  takes  super  operation       written by
      1     0      1      1  take            record 2, process 0
      2     1      1      -  put 4294967295  record 20, process 0
";
    assert_eq!(written(&["table", &list, "--node", "2"]), expected);
}

#[test]
fn one_node() {
    let of_nodes = (1..=7).map(|node| {
        let node = node.to_string();
        written(&["table", "examples/known/M2.txt", "--node", &node])
    });
    assert_eq!(of_nodes.collect::<String>(), M2);
}

#[test]
fn nodes_that_the_tree_lacks() {
    for node in ["0", "4", "4294967295"] {
        let message = format!(
            "otq: --node {node}: the tree of 2 processes has nodes 1 to 3; 1 is the root, 2 + k the leaf of process k\n"
        );
        assert_fails(&["table", TEXT, "--node", node], 2, &message);
        assert_fails(&["table", TEXT, "--json", "--node", node], 2, &message);
    }
    for node in ["leaf 0", "4294967296"] {
        let message = format!(
            "otq: --node: expected the one node to show: 1 is the root, p + k the leaf of process k, found `{node}`\n"
        );
        assert_fails(&["table", TEXT, "--node", node], 2, &message);
    }
    assert_fails(
        &["table", TEXT, "--node"],
        2,
        "otq: --node needs its V; usage: otq table ",
    );
}

/// What the records before the refused one left, and then the refusal as `otq run` tells it.
#[test]
fn refused_lists() {
    for (name, l, taken) in [
        ("M7", "1", 18),
        ("M8", "24", 0),
        ("M9", "2", 1),
        ("M10", "24", 17),
    ] {
        let list = format!("examples/known/{name}.txt");
        let said = otq(&["table", &list]);
        let run = otq(&["run", &list]);
        assert_eq!((said.status, &said.err), (3, &run.err), "{name}");
        let before = &bytes(&["encode", &list])[..8 * taken];
        let before = file(&format!("table-{name}.bin"), before);
        let left = written(&["table", "-p", "2", "-L", l, &before]);
        assert_eq!(said.out, left, "{name}");
    }
    // Of one node too, that the list is refused is told.
    let root = otq(&["table", "examples/known/M7.txt", "--node", "1"]);
    assert_eq!((root.status, root.out.lines().count()), (3, 3), "{root:?}");
    // A node that the tree lacks is a mistake before that.
    let message = "otq: --node 99: the tree of 2 processes has nodes 1 to 3; ";
    assert_fails(
        &["table", "examples/known/M7.txt", "--node", "99"],
        2,
        message,
    );
}

#[test]
fn calls_turned_down_have_no_table() {
    assert_fails(
        &["table", "examples/known/M11.txt"],
        3,
        "otq: refused with 3: ",
    );
    assert_fails(&with_numbers("table", &[TORN]), 3, "otq: refused with 4: ");
    assert_fails(
        &["table", "-p", "3", "-L", "3", STEPS],
        3,
        "otq: refused with 1: ",
    );
    assert_fails(
        &["table", "-p", "2", "-L", "0", STEPS],
        3,
        "otq: refused with 2: ",
    );
    // p is wrong before a node can be.
    let words = ["table", "-p", "3", "-L", "3", STEPS, "--node", "99"];
    assert_fails(&words, 3, "otq: refused with 1: ");
    let whole = otq(&with_numbers("table", &[TORN, "--whole", "--node", "1"]));
    assert_eq!(
        (whole.status, whole.out.lines().count()),
        (0, 4),
        "{whole:?}"
    );
}

#[test]
fn json() {
    let m6 = written(&["table", "--json", "examples/known/M6.txt", "--node", "2"]);
    let block = r#"{"block": 1, "puts": 1, "takes": 0, "super": 1, "end_left": 9, "end_right": 0, "size": 0, "number": 2, "process": 0}"#;
    let node = format!(r#"{{"node": 2, "name": "leaf 0", "blocks": [{block}]}}"#);
    assert_eq!(
        m6,
        format!("{{\"refusal\": null, \"taken\": 37, \"nodes\": [{node}]}}\n")
    );
    let refused = otq(&["table", "--json", "examples/known/M8.txt", "--node", "1"]);
    assert_eq!(refused.status, 3);
    assert!(
        refused.out.starts_with(r#"{"refusal": {"number": 7, "#),
        "{refused:?}"
    );
    let end = "\"taken\": 0, \"nodes\": [{\"node\": 1, \"name\": \"the root\", \"blocks\": []}]}\n";
    assert!(refused.out.ends_with(end), "{refused:?}");
    let turned_down = otq(&["table", "--json", "examples/known/M11.txt"]);
    assert_eq!(turned_down.status, 3);
    assert!(
        turned_down.out.ends_with("\"taken\": 0, \"nodes\": []}\n"),
        "{turned_down:?}"
    );
}

/// The largest tree, with all operations in the root: its blocks stand in 15 nodes, 500 in each leaf.
#[test]
fn the_most_operations() {
    let list = path("table-most.txt");
    written(&[
        "make",
        "-p",
        "8",
        "-L",
        "500",
        "--pace",
        "bursts:40",
        "--seed",
        "5",
        "-o",
        &list,
    ]);
    let of_node = |node: u32| written(&["table", &list, "--node", &node.to_string()]);
    for leaf in 8..=15 {
        // A line a block after its heading and the titles.
        assert_eq!(of_node(leaf).lines().count(), 2 + 500, "node {leaf}");
    }
    let root = of_node(1);
    let last = root.lines().last().unwrap();
    let words = last.split_whitespace().skip(1).take(2);
    let totals = words.map(|word| word.parse::<u32>().unwrap());
    assert_eq!(totals.sum::<u32>(), 4_000, "{last}");
    let json = written(&["table", "--json", &list]);
    assert_eq!(json.matches("{\"node\": ").count(), 15);
}

/// Each block of the table with the record that wrote it, as the trace words it.
fn writes(table: &str) -> Vec<(usize, String)> {
    let mut node = "";
    let mut writes = Vec::new();
    for line in table.lines().filter(|line| !line.contains("written by")) {
        let Some((block, record)) = line.split_once("record ") else {
            node = line.split([',', ':']).next().unwrap();
            continue;
        };
        let place = block.split_whitespace().next().unwrap();
        let (record, process) = record.split_once(", ").unwrap();
        let told = format!("  {process} writes block {place} of {node}");
        writes.push((record.parse().unwrap(), told));
    }
    writes
}

/// The records that write, as the trace of the Rust version tells them, are those of the table.
#[test]
fn records_that_the_trace_tells() {
    for (p, pace) in [("2", "uniform"), ("4", "stall:C4"), ("8", "bursts:9")] {
        let made = written(&["make", "-p", p, "-L", "12", "--pace", pace, "--seed", "3"]);
        let list = file(&format!("table-{p}.txt"), made.as_bytes());
        let mut of_table = writes(&written(&["table", &list]));
        of_table.sort();
        let trace = written(&["trace", &list]);
        let of_trace = trace.lines().filter_map(|line| {
            let (before, after) = line.split_once("writes block ")?;
            let mut words = before.split_whitespace();
            let (number, process) = (words.next()?, words.nth(1)?);
            let (block, _) = after.split_once(':')?;
            let told = format!("  process {process} writes block {block}");
            assert!(line.ends_with(&format!(", number {number}")), "{line}");
            Some((number.parse().unwrap(), told))
        });
        assert_eq!(of_table, of_trace.collect::<Vec<_>>(), "{p} {pace}");
        assert!(of_table.len() > 12, "{p} {pace}");
    }
}
