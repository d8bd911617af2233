//! `otq desk`.

use crate::arguments::{Choice, Given};
use crate::failure::{Failure, Status};
use crate::fields::ORDER;
use crate::files;
use crate::json::Json;
use crate::list::List;
use crate::refused::Refused;
use crate::tool::Tool;
use crate::words::count;
use dictionary::{term, terms_of};
use otq::{Answer, Kind, Order};
use std::collections::{HashSet, VecDeque};

pub const LICENSED: Choice = Choice {
    name: "--licensed",
    value: Some("K"),
    about: "the process that may put entries, 0 to p - 1",
};
pub const RAW: Choice = Choice {
    name: "--raw",
    value: Some("OUT"),
    about: "writes the terms to OUT, 4 bytes each, low byte first; nothing if the list is refused",
};

pub fn desk(tool: &mut Tool, given: &Given) -> Result<Status, Failure> {
    let licensed = given.number(&LICENSED)?;
    let licensed = licensed.ok_or_else(|| {
        Failure::mistake(
            "give --licensed K, the process that may put entries; processes count from 0 and are below p",
        )
    })?;
    let list = List::read(tool, given)?;
    let bytes = match list.deliver(licensed)? {
        Ok(bytes) => bytes,
        Err(refusal) => {
            let taken = list.deliveries_taken(licensed);
            let refused = Refused::of_desk(&list, licensed, refusal, taken);
            if given.has("--json") {
                tool.line(json(&[], Some(&refused)))?;
            }
            return Err(refused.failure());
        }
    };
    let deliveries = deliveries(&list, &terms_of(&bytes))?;
    if let Some(path) = given.value("--raw") {
        files::write(path, &bytes, &[&list.name])?;
    }
    match given.has("--json") {
        true => tool.line(json(&deliveries, None))?,
        false => print(tool, &deliveries)?,
    }
    Ok(Status::Done)
}

/// A term that the desk delivered, the take that received it, and the put that it came from.
struct Delivered {
    term: u32,
    take: Order,
    put: Put,
}

/// A put of the root order.
#[derive(Clone, Copy)]
struct Put {
    order: Order,
    /// Its number among the puts, from 1.
    number: usize,
    value: u32,
}

/// The terms of the desk, each with its take and its put. These are told by a plain queue that is fed
/// the library's order list; if it gives the takes that ended other terms than the desk, nothing is shown.
fn deliveries(list: &List, terms: &[u32]) -> Result<Vec<Delivered>, Failure> {
    let order = list.order()?.expect("the queue takes what the desk takes");
    let order: Vec<Order> = otq::records_of(&order).expect("order records");
    let answers: Vec<Answer> = otq::records_of(&list.answers()).expect("answer records");
    let ended = answers.iter().map(|answer| (answer.process, answer.serial));
    let ended: HashSet<(u8, u32)> = ended.collect();
    let mut received = received(&order, &values(list));
    received.retain(|(take, put)| {
        ended.contains(&(take.process, take.serial.into())) && term(put.value).is_some()
    });
    let by_order = received.iter().filter_map(|(_, put)| term(put.value));
    if !by_order.eq(terms.iter().copied()) {
        return Err(Failure::mistake(format!(
            "the desk delivers {}, and the order list gives others: nothing is shown",
            count(terms.len(), "term")
        )));
    }
    let pairs = terms.iter().zip(received);
    let deliveries = pairs.map(|(&term, (take, put))| Delivered { term, take, put });
    Ok(deliveries.collect())
}

/// The puts that a plain queue gives the takes of a root order, with the takes that get one.
fn received(order: &[Order], values: &[Vec<u32>]) -> Vec<(Order, Put)> {
    let (mut queue, mut puts, mut takes) = (VecDeque::new(), 0, Vec::new());
    for &order in order {
        match order.kind {
            Kind::Put => {
                puts += 1;
                queue.push_back(Put {
                    order,
                    number: puts,
                    value: values[usize::from(order.process)][usize::from(order.serial) - 1],
                });
            }
            Kind::Take => takes.extend(queue.pop_front().map(|put| (order, put))),
        }
    }
    takes
}

/// By process, the values of the begins in the order of their serials; 0 for takes.
fn values(list: &List) -> Vec<Vec<u32>> {
    let mut values = vec![Vec::new(); list.p() as usize];
    for &[process, kind, _, _, value @ ..] in list.records() {
        if kind != 0 {
            values[usize::from(process)].push(u32::from_le_bytes(value));
        }
    }
    values
}

fn print(tool: &mut Tool, deliveries: &[Delivered]) -> Result<(), Failure> {
    for Delivered { term, take, put } in deliveries {
        tool.line(format!(
            "term {term} take {} {} put {} {} {}",
            take.process, take.serial, put.order.process, put.order.serial, put.number
        ))?;
    }
    tool.line(count(deliveries.len(), "term"))
}

fn json(deliveries: &[Delivered], refused: Option<&Refused>) -> Json {
    let number = |number: usize| Json::Number(number as u64);
    let delivery = |Delivered { term, take, put }: &Delivered| {
        Json::object([
            ("term", Json::Number((*term).into())),
            ("take", ORDER.json(&<[u8; Order::BYTES]>::from(*take))),
            ("put", ORDER.json(&<[u8; Order::BYTES]>::from(put.order))),
            ("put_number", number(put.number)),
        ])
    };
    Json::object([
        ("refusal", Json::or_null(refused.map(Refused::json))),
        (
            "terms",
            Json::List(deliveries.iter().map(delivery).collect()),
        ),
        ("count", number(deliveries.len())),
    ])
}

#[cfg(test)]
mod tests {
    use super::{deliveries, Delivered};
    use crate::failure::{Failure, Status};
    use crate::list::List;

    /// The licensed process puts terms 7 and 8, and a take gets the first.
    const LIST: &str = "processes 2
put 2147483655 by 0
step 0 x17
put 2147483656 by 0
step 0 x17
take by 1
step 1 x17
";

    #[test]
    fn terms_that_are_not_those_of_the_order_list() {
        let list = List::of_text(LIST);
        let told = |terms: &[u32]| deliveries(&list, terms);
        let shown: Vec<Delivered> = told(&[7]).expect("the term of the take");
        assert_eq!((shown[0].term, shown[0].put.number), (7, 1));
        for wrong in [&[][..], &[8], &[7, 8]] {
            let Err(Failure { status, message }) = told(wrong) else {
                panic!("{wrong:?} are shown");
            };
            assert_eq!(status, Status::Mistake);
            assert!(message.ends_with(": nothing is shown"), "{message}");
        }
    }
}
