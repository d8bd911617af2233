//! `otq nodes`.

use super::P;
use crate::arguments::Given;
use crate::columns::{self, number, words, Column};
use crate::failure::{Failure, Status};
use crate::json::Json;
use crate::tool::Tool;
use crate::words::{count, node_name};
use otq::{table_words, Block, Table, NODE_STARTS, NODE_STARTS_L, ROOT};

/// The processes of each row of the constants.
const PROCESSES: [u32; NODE_STARTS.len()] = [2, 4, 8];

pub fn nodes(tool: &mut Tool, given: &Given) -> Result<Status, Failure> {
    let asked = given.number_if(&P, |p| PROCESSES.contains(p))?;
    let trees = trees(asked);
    match given.has("--json") {
        true => tool.line(json(&trees))?,
        false => print(tool, &trees)?,
    }
    Ok(Status::Done)
}

/// A row of the constants, and the nodes that its tree has.
struct Tree {
    p: u32,
    words_needed: usize,
    starts: &'static [u32],
    nodes: Vec<Node>,
}

struct Node {
    number: u32,
    name: String,
    height: u32,
    last_place: u32,
    first_word: u32,
}

impl Node {
    fn last_word(&self) -> u32 {
        let places = self.last_place + 1;
        self.first_word + Block::WORDS as u32 * places - 1
    }
}

/// The trees asked for, all or one.
fn trees(asked: Option<u32>) -> Vec<Tree> {
    let rows = PROCESSES.into_iter().zip(&NODE_STARTS);
    let rows = rows.filter(|(p, _)| asked.is_none_or(|asked| asked == *p));
    rows.map(|(p, starts)| tree(p, starts)).collect()
}

fn tree(p: u32, starts: &'static [u32]) -> Tree {
    // The shape of a tree is that of its table, whatever the words are.
    let words = vec![0; table_words(p, NODE_STARTS_L).expect("a p and an L that are taken")];
    let table = Table::new(p, NODE_STARTS_L, &words).expect("as many words as are needed");
    let nodes = (ROOT..).zip(starts).filter_map(|(number, &first_word)| {
        Some(Node {
            number,
            name: node_name(number, table.process_of_leaf(number).map(u32::from)),
            height: table.height(number)?,
            last_place: table.last_place(number)?,
            first_word,
        })
    });
    Tree {
        p,
        words_needed: words.len(),
        starts,
        nodes: nodes.collect(),
    }
}

const COLUMNS: [Column<Node>; 6] = [
    number("node", |node| node.number.to_string()),
    words("name", |node| node.name.clone()),
    number("height", |node| node.height.to_string()),
    words("places", |node| format!("0 to {}", node.last_place)),
    number("first word", |node| node.first_word.to_string()),
    number("last word", |node| node.last_word().to_string()),
];

fn print(tool: &mut Tool, trees: &[Tree]) -> Result<(), Failure> {
    for (index, tree) in trees.iter().enumerate() {
        if index > 0 {
            tool.line("")?;
        }
        tool.line(heading(tree))?;
        for line in columns::lines(&COLUMNS, &tree.nodes) {
            tool.line(format!("  {line}"))?;
        }
        let (has, last) = (tree.nodes.len(), tree.starts.len());
        if has < last {
            let lacks = has + 1;
            tool.line(format!(
                "  nodes {lacks} to {last}: not in the tree, 0 in the constants"
            ))?;
        }
    }
    Ok(())
}

fn heading(tree: &Tree) -> String {
    let (p, words) = (tree.p, count(tree.words_needed, "word"));
    format!("p = {p} processes, at most L = {NODE_STARTS_L} operations each: a table of {words}")
}

fn json(trees: &[Tree]) -> Json {
    let tree = |tree: &Tree| {
        let starts = tree.starts.iter().map(|&start| Json::Number(start.into()));
        Json::object([
            ("p", Json::Number(tree.p.into())),
            ("table_words", Json::Number(tree.words_needed as u64)),
            ("starts", Json::List(starts.collect())),
            ("nodes", Json::List(tree.nodes.iter().map(node).collect())),
        ])
    };
    Json::object([
        ("L", Json::Number(NODE_STARTS_L.into())),
        ("trees", Json::List(trees.iter().map(tree).collect())),
    ])
}

fn node(node: &Node) -> Json {
    let number = |number: u32| Json::Number(number.into());
    Json::object([
        ("node", number(node.number)),
        ("name", Json::text(&node.name)),
        ("height", number(node.height)),
        ("last_place", number(node.last_place)),
        ("first_word", number(node.first_word)),
        ("last_word", number(node.last_word())),
    ])
}
