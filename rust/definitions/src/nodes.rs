//! Where nodes start: the table of constants, and its rows at the edges of L and between them. Their file
//! knows neither the queue's calls nor records.

use crate::met::Met;
use crate::row::{Row, Statement};
use crate::terms;
use reference::node_starts::{start_row, start_table, L, NODES, PROCESSES};
use reference::tree::Shape;

/// The definitions that the prover computes with.
const UNFOLDED: &str = "node_start_rules";

pub fn rows() -> Vec<Row> {
    let mut rows = vec![table()];
    for p in PROCESSES {
        for l in [1, 2, 3, 7, 23, 24, 25, 100, 250, 499, 500] {
            rows.push(row(shape(p, l)));
        }
    }
    rows
}

/// The theorems that the table, the p of each row and L are the reference's. The table alone would not tell
/// p = 9 from 8: the definitions give both the same tree.
fn table() -> Row {
    let lines = start_table(L).map(list);
    let table = format!("({})", terms::list(lines.into_iter()));
    let mut met = vec![Met::new("starts", "the table")];
    met.extend(PROCESSES.into_iter().flat_map(|p| nodes_met(shape(p, L))));
    Row {
        about: format!("nodes: the table, L = {L}"),
        met,
        statements: vec![
            equal("starts", "node_starts", &table),
            equal("processes", "table_processes", &list(PROCESSES)),
            equal("most", "table_most", &L.to_string()),
        ],
    }
}

/// The theorem that the definition gives the reference's row.
fn row(shape: Shape) -> Row {
    let (p, l) = (shape.p(), shape.l());
    let case = match l {
        1 | L | 500 => format!("L={l}"),
        _ => "another L".to_string(),
    };
    let left = format!("start_row {}", terms::shape(shape));
    let mut met = vec![Met::new("starts", case)];
    met.extend(nodes_met(shape));
    Row {
        about: format!("nodes: p = {p}, L = {l}"),
        met,
        statements: vec![equal("starts", &left, &list(start_row(shape)))],
    }
}

fn equal(name: &'static str, left: &str, right: &str) -> Statement {
    Statement::equal(name, left, right).by(UNFOLDED)
}

fn list<const N: usize>(numbers: [u32; N]) -> String {
    format!("({})", terms::numbers(numbers))
}

/// For each entry of a row, whether the tree has its node.
fn nodes_met(shape: Shape) -> impl Iterator<Item = Met> {
    (1..=NODES as u32).map(move |node| {
        let has = node <= shape.last_node();
        let what = if has { "node" } else { "lacking node" };
        Met::new(what, format!("p={}", shape.p()))
    })
}

fn shape(p: u32, l: u32) -> Shape {
    Shape::new(p, l).expect("a proper p and L")
}
