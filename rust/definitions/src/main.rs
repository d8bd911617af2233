//! Writes rows for the prover: calls of the reference with everything that they leave, and what it
//! says of demand 3. Arguments: `HOW-MANY SEED` for random calls and forecasts; `calls` for the
//! fixed calls that play records, and among them `between` for those in which operations come
//! between the reads of another, `helps` for those in which a refresh advances a child's block; `branches`
//! for the calls that meet the branches of the steps that those do not;
//! `forecast` for the fixed forecasts; `demand3` for its terms; `desk [HOW-MANY SEED]` for calls of the
//! delivery desk, the fixed ones and so many random ones; `price [HOW-MANY SEED]` for prices of deliveries
//! alike; `nodes` for the table of where nodes start, and for its rows at other L; `long` for more calls,
//! forecasts and terms that take the prover long; and `tally FILE ..`, which says how often the rows of
//! these files meet each number, case and branch of a step and fails if one is never met.

mod call;
mod decimal;
mod demand3;
mod desk;
mod desk_order;
mod faults;
mod fixed_bytes;
mod fixed_calls;
mod fixed_logs;
mod fixed_records;
mod forecasts;
mod late_begins;
mod met;
mod nodes;
mod price;
mod random_calls;
mod row;
mod taken;
mod terms;

use row::Row;

fn main() {
    let arguments: Vec<String> = std::env::args().skip(1).collect();
    let arguments: Vec<&str> = arguments.iter().map(String::as_str).collect();
    match arguments[..] {
        ["tally", ref files @ ..] => {
            if let Err(missing) = met::tally(files) {
                eprintln!("{missing}");
                std::process::exit(1);
            }
        }
        ["calls"] => print(fixed_calls::rows()),
        ["between"] => print(fixed_calls::between()),
        ["helps"] => print(fixed_calls::helps()),
        ["branches"] => print(fixed_calls::branches()),
        ["demand3"] => print(demand3::rows()),
        ["forecast"] => print(forecasts::rows()),
        ["desk"] => print_desk(desk::rows(42, 7)),
        ["desk", rows, seed] => print_desk(desk::rows(number(rows), number(seed))),
        ["price"] => print_price(price::rows(40, 7)),
        ["price", rows, seed] => print_price(price::rows(number(rows), number(seed))),
        ["nodes"] => print_nodes(nodes::rows()),
        ["long"] => print(long()),
        [rows, seed] => print(random_calls::rows(number(rows), number(seed))),
        _ => panic!(
            "arguments: HOW-MANY SEED, calls, between, helps, branches, demand3, forecast, \
             desk [HOW-MANY SEED], price [HOW-MANY SEED], nodes, long, or tally FILE .."
        ),
    }
}

fn long() -> Vec<Row> {
    let mut rows = fixed_calls::largest();
    rows.extend(fixed_calls::branches());
    rows.push(fixed_records::many_begun_first());
    rows.extend(forecasts::largest());
    rows.extend(demand3::planned());
    rows
}

fn number(argument: &str) -> u64 {
    argument.parse().expect("a number")
}

/// The file of the rows.
fn print(rows: Vec<Row>) {
    print_below(include_str!("head.txt"), rows);
}

/// The file of the desk's rows. Only these know the desk, which is above the queue's calls.
fn print_desk(rows: Vec<Row>) {
    let head = concat!(
        include_str!("desk_uses.txt"),
        include_str!("head.txt"),
        include_str!("desk_head.txt")
    );
    print_below(head, rows);
}

/// The file of the price's rows, which know nothing of the queue.
fn print_price(rows: Vec<Row>) {
    print_below(include_str!("price_head.txt"), rows);
}

/// The file of the rows of node starts, which know the tree alone.
fn print_nodes(rows: Vec<Row>) {
    print_below(include_str!("nodes_head.txt"), rows);
}

fn print_below(head: &str, rows: Vec<Row>) {
    print!("{head}");
    for (number, row) in rows.iter().enumerate() {
        print!("{}", row.text(number));
    }
}
