//! `otq table`.

use crate::arguments::{Choice, Given};
use crate::columns::{self, number, words};
use crate::failure::{Failure, Status};
use crate::json::Json;
use crate::list::List;
use crate::refused::Refused;
use crate::tool::Tool;
use crate::words::node_name;
use otq::{Block, Table, ROOT};

pub const NODE: Choice = Choice {
    name: "--node",
    value: Some("V"),
    about: "the one node to show: 1 is the root, p + k the leaf of process k",
};

pub fn table(tool: &mut Tool, given: &Given) -> Result<Status, Failure> {
    let asked = given.number(&NODE)?;
    let list = List::read(tool, given)?;
    let played = list.run()?;
    let refused = Refused::of_run(&list, &played.run);
    let nodes = match &refused {
        // A call that is turned down before its records writes no table.
        Some(refused) if refused.record.is_none() => Vec::new(),
        _ => nodes(&list, &played.table, asked)?,
    };
    match given.has("--json") {
        true => tool.line(json(&nodes, played.run.taken, refused.as_ref()))?,
        false => print(tool, &nodes)?,
    }
    refused.map_or(Ok(Status::Done), |refused| Err(refused.failure()))
}

/// A node with its present blocks.
struct Node {
    number: u32,
    name: String,
    /// Its name, and its number where the name does not have it.
    heading: String,
    /// What its blocks have to show.
    columns: &'static [Column],
    blocks: Vec<Written>,
}

/// A present block.
struct Written {
    place: u32,
    block: Block,
    /// The block before it in its node.
    before: Block,
    /// The process of the record that wrote it.
    process: u8,
}

impl Written {
    /// The operation of a leaf's block. The end left of a put is its value.
    fn operation(&self) -> String {
        match self.block.puts > self.before.puts {
            true => format!("put {}", self.block.end_left),
            false => "take".to_string(),
        }
    }
}

/// The nodes asked for, all or one, of the table that the list left.
fn nodes(list: &List, words: &[u32], asked: Option<u32>) -> Result<Vec<Node>, Failure> {
    let p = list.p();
    let table = Table::new(p, list.l(), words).expect("a table that the library has filled");
    let nodes = match asked {
        None => table.nodes(),
        Some(node) if table.nodes().contains(&node) => node..=node,
        Some(node) => {
            let last = *table.nodes().end();
            return Err(Failure::mistake(format!(
                "--node {node}: the tree of {p} processes has nodes {ROOT} to {last}; {ROOT} is the root, {p} + k \
                 the leaf of process k"
            )));
        }
    };
    Ok(nodes.map(|node| of_node(list, table, node)).collect())
}

fn of_node(list: &List, table: Table, node: u32) -> Node {
    let blocks = table.present(node).map(|(place, block)| Written {
        place,
        block,
        before: table
            .block(node, place - 1)
            .expect("a present block is at place 1 or later"),
        process: list.process_of(block.number),
    });
    let leaf_of = table.process_of_leaf(node).map(u32::from);
    let name = node_name(node, leaf_of);
    let numbered = format!("{name}, node {node}");
    let (heading, columns): (_, &[Column]) = match (node, leaf_of) {
        (ROOT, _) => (numbered, &OF_ROOT),
        (_, Some(_)) => (numbered, &OF_LEAF),
        // The name of an inner node is its number.
        (_, None) => (name.clone(), &OF_INNER),
    };
    Node {
        number: node,
        name,
        heading,
        columns,
        blocks: blocks.collect(),
    }
}

/// A column of a table of blocks.
type Column = columns::Column<Written>;

const PLACE: Column = number("block", |written| written.place.to_string());
const PUTS: Column = number("puts", |written| written.block.puts.to_string());
const TAKES: Column = number("takes", |written| written.block.takes.to_string());
const SUPER: Column = number("super", |written| match written.block.superblock {
    0 => "-".to_string(),
    place => place.to_string(),
});
const LEFT: Column = number("end left", |written| written.block.end_left.to_string());
const RIGHT: Column = number("end right", |written| written.block.end_right.to_string());
const SIZE: Column = number("size", |written| written.block.size.to_string());
const OPERATION: Column = words("operation", Written::operation);
const WRITTEN: Column = words("written by", |written| {
    format!(
        "record {}, process {}",
        written.block.number, written.process
    )
});

/// The root has no parent, so that its blocks have no super.
const OF_ROOT: [Column; 7] = [PLACE, PUTS, TAKES, LEFT, RIGHT, SIZE, WRITTEN];
const OF_INNER: [Column; 7] = [PLACE, PUTS, TAKES, SUPER, LEFT, RIGHT, WRITTEN];
const OF_LEAF: [Column; 6] = [PLACE, PUTS, TAKES, SUPER, OPERATION, WRITTEN];

fn print(tool: &mut Tool, nodes: &[Node]) -> Result<(), Failure> {
    for node in nodes {
        if node.blocks.is_empty() {
            tool.line(format!("{}: no block", node.heading))?;
            continue;
        }
        tool.line(&node.heading)?;
        for line in columns::lines(node.columns, &node.blocks) {
            tool.line(format!("  {line}"))?;
            if tool.closed() {
                return Ok(());
            }
        }
    }
    Ok(())
}

fn json(nodes: &[Node], taken: u64, refused: Option<&Refused>) -> Json {
    let node = |node: &Node| {
        Json::object([
            ("node", Json::Number(node.number.into())),
            ("name", Json::text(&node.name)),
            (
                "blocks",
                Json::List(node.blocks.iter().map(block).collect()),
            ),
        ])
    };
    Json::object([
        ("refusal", Json::or_null(refused.map(Refused::json))),
        ("taken", Json::Number(taken)),
        ("nodes", Json::List(nodes.iter().map(node).collect())),
    ])
}

/// The words of a block by their names, its place, and the process of the record that wrote it.
fn block(written: &Written) -> Json {
    let Block {
        puts,
        takes,
        superblock,
        end_left,
        end_right,
        size,
        number,
    } = written.block;
    let members = [
        ("block", written.place),
        ("puts", puts),
        ("takes", takes),
        ("super", superblock),
        ("end_left", end_left),
        ("end_right", end_right),
        ("size", size),
        ("number", number),
        ("process", written.process.into()),
    ];
    Json::object(members.map(|(name, word)| (name, Json::Number(word.into()))))
}
