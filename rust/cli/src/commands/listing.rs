//! `otq order`.

use crate::arguments::{Choice, Given};
use crate::failure::{Failure, Status};
use crate::fields::ORDER;
use crate::files;
use crate::json::Json;
use crate::list::List;
use crate::refused::Refused;
use crate::tool::Tool;
use crate::words;
use otq::Order;

pub const RAW: Choice = Choice {
    name: "--raw",
    value: Some("OUT"),
    about: "writes the order records to OUT; nothing if the list is refused",
};

pub fn order(tool: &mut Tool, given: &Given) -> Result<Status, Failure> {
    let list = List::read(tool, given)?;
    let order = match list.order()? {
        Ok(order) => order,
        Err(refusal) => {
            let refused = Refused::of_list(&list, refusal, list.taken());
            if given.has("--json") {
                tool.line(json(&[], Some(&refused)))?;
            }
            return Err(refused.failure());
        }
    };
    if let Some(path) = given.value("--raw") {
        files::write(path, &order, &[&list.name])?;
    }
    if given.has("--json") {
        tool.line(json(&order, None))?;
        return Ok(Status::Done);
    }
    for &record in order.as_chunks().0 {
        tool.line(words::order(record))?;
    }
    Ok(Status::Done)
}

fn json(order: &[u8], refused: Option<&Refused>) -> Json {
    let records = order.chunks_exact(Order::BYTES);
    Json::object([
        ("refusal", Json::or_null(refused.map(Refused::json))),
        (
            "order",
            Json::List(records.map(|record| ORDER.json(record)).collect()),
        ),
    ])
}
