//! `otq nodes`.

use crate::support::{assert_fails, written};
use otq::NODE_STARTS;

const OF_2: &str = "\
p = 2 processes, at most L = 24 operations each: a table of 693 words
  node  name      height  places   first word  last word
     1  the root       1  0 to 48           0        342
     2  leaf 0         0  0 to 24         343        517
     3  leaf 1         0  0 to 24         518        692
  nodes 4 to 15: not in the tree, 0 in the constants
";

const OF_4: &str = "\
p = 4 processes, at most L = 24 operations each: a table of 2065 words
  node  name      height  places   first word  last word
     1  the root       2  0 to 96           0        678
     2  node 2         1  0 to 48         679       1021
     3  node 3         1  0 to 48        1022       1364
     4  leaf 0         0  0 to 24        1365       1539
     5  leaf 1         0  0 to 24        1540       1714
     6  leaf 2         0  0 to 24        1715       1889
     7  leaf 3         0  0 to 24        1890       2064
  nodes 8 to 15: not in the tree, 0 in the constants
";

const OF_8: &str = "\
p = 8 processes, at most L = 24 operations each: a table of 5481 words
  node  name      height  places    first word  last word
     1  the root       3  0 to 192           0       1350
     2  node 2         2  0 to 96         1351       2029
     3  node 3         2  0 to 96         2030       2708
     4  node 4         1  0 to 48         2709       3051
     5  node 5         1  0 to 48         3052       3394
     6  node 6         1  0 to 48         3395       3737
     7  node 7         1  0 to 48         3738       4080
     8  leaf 0         0  0 to 24         4081       4255
     9  leaf 1         0  0 to 24         4256       4430
    10  leaf 2         0  0 to 24         4431       4605
    11  leaf 3         0  0 to 24         4606       4780
    12  leaf 4         0  0 to 24         4781       4955
    13  leaf 5         0  0 to 24         4956       5130
    14  leaf 6         0  0 to 24         5131       5305
    15  leaf 7         0  0 to 24         5306       5480
";

#[test]
fn one_tree_and_all() {
    for (p, tree) in [("2", OF_2), ("4", OF_4), ("8", OF_8)] {
        assert_eq!(written(&["nodes", "-p", p]), tree);
    }
    assert_eq!(written(&["nodes"]), [OF_2, OF_4, OF_8].join("\n"));
}

#[test]
fn json() {
    let expected = [
        r#"{"L": 24, "trees": [{"p": 2, "table_words": 693, "#,
        r#""starts": [0, 343, 518, 0, 0, 0, 0, 0, 0, 0, 0, 0, 0, 0, 0], "nodes": ["#,
        r#"{"node": 1, "name": "the root", "height": 1, "last_place": 48, "first_word": 0, "last_word": 342}, "#,
        r#"{"node": 2, "name": "leaf 0", "height": 0, "last_place": 24, "first_word": 343, "last_word": 517}, "#,
        r#"{"node": 3, "name": "leaf 1", "height": 0, "last_place": 24, "first_word": 518, "last_word": 692}"#,
        "]}]}\n",
    ];
    assert_eq!(written(&["nodes", "-p", "2", "--json"]), expected.concat());
}

/// The rows of the constants, as they are.
#[test]
fn rows_in_json() {
    let json = written(&["nodes", "--json"]);
    let rows = json.split(r#""starts": "#).skip(1);
    let rows = rows.map(|rest| rest.split_inclusive(']').next().unwrap());
    let expected = NODE_STARTS.map(|row| format!("{row:?}"));
    assert_eq!(rows.collect::<Vec<_>>(), expected);
}

/// The names of nodes are those of `otq table`.
#[test]
fn names() {
    let named = |words: &[&str]| -> Vec<String> {
        let json = written(words);
        let nodes = json.split(r#"{"node": "#).skip(1);
        nodes
            .map(|node| node.split(", ").take(2).collect())
            .collect()
    };
    let expected = named(&["table", "--json", "examples/known/M5.txt"]);
    assert_eq!(named(&["nodes", "--json", "-p", "4"]), expected);
    assert_eq!(expected.len(), 7);
}

#[test]
fn mistakes() {
    for p in ["0", "1", "3", "16", "4294967298", "99999999999", "two"] {
        let message =
            format!("otq: -p: expected the number of processes, 2, 4 or 8, found `{p}`\n");
        assert_fails(&["nodes", "-p", p], 2, &message);
        assert_fails(&["nodes", "--json", "-p", p], 2, &message);
    }
    let usage = "usage: otq nodes [-p P] [--json]\n";
    for (words, mistake) in [
        (&["nodes", "4"][..], "`4` is too much"),
        (&["nodes", "-L", "24"], "there is no option -L"),
        (&["nodes", "-p"], "-p needs its P"),
    ] {
        assert_fails(words, 2, &format!("otq: {mistake}; {usage}"));
    }
}
