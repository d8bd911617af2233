//! `otq price`.

use crate::arguments::{number_if, Given};
use crate::columns::{self, number, words, Column};
use crate::failure::{Failure, Status};
use crate::files::Name;
use crate::json::Json;
use crate::refused::Refused;
use crate::sheet::Sheet;
use crate::tool::Tool;
use crate::words::thousands;
use dictionary::price::Total;

pub fn price(tool: &mut Tool, given: &Given) -> Result<Status, Failure> {
    let [count, sheet] = &given.files[..] else {
        return Err(Failure::mistake(
            "COUNT and SHEET are both needed; usage: otq price COUNT SHEET [--json]",
        ));
    };
    let count = number_if("COUNT", "0 to 4000", count, |_| true)?;
    let sheet = Sheet::read(tool, Name::new(sheet))?;
    let total = sheet.total(count);
    let refused = total
        .refusal
        .map(|refusal| Refused::of_sheet(&sheet, count, refusal));
    let priced = match refused {
        None => priced(&sheet, count),
        Some(_) => Vec::new(),
    };
    if given.has("--json") {
        tool.line(json(count, &priced, total, refused.as_ref()))?;
    } else if refused.is_none() {
        for line in columns::lines(&COLUMNS, &bill(count, &priced, total)) {
            tool.line(line)?;
        }
    }
    refused.map_or(Ok(Status::Done), |refused| Err(refused.failure()))
}

/// The deliveries that fall in one band, at least one.
struct Priced {
    /// The numbers of the first and of the last.
    first: u32,
    last: u32,
    /// Cents for a hundred.
    price: u32,
    /// What they cost, in hundredths of a cent.
    hundredths: u64,
}

impl Priced {
    fn number(&self) -> u32 {
        self.last - self.first + 1
    }
}

fn hundredths(total: Total) -> u64 {
    100 * u64::from(total.cents) + u64::from(total.remainder)
}

/// The bands in which deliveries fall. What those of a band cost is told by the library: it is what the
/// deliveries up to its last cost more than those before its first.
fn priced(sheet: &Sheet, count: u32) -> Vec<Priced> {
    let up_to = |delivery| hundredths(sheet.total(delivery));
    let mut priced = Vec::new();
    let mut before = 0;
    for (number, band) in (1..).zip(sheet.bands()) {
        // The end of the last band changes no price.
        let is_last = number == sheet.count();
        let last = if is_last { count } else { band.last.min(count) };
        if before < last {
            priced.push(Priced {
                first: before + 1,
                last,
                price: band.price,
                hundredths: up_to(last) - up_to(before),
            });
            before = last;
        }
    }
    priced
}

/// A line of the bill.
struct Row {
    deliveries: String,
    number: u32,
    price: Option<u32>,
    hundredths: u64,
}

const COLUMNS: [Column<Row>; 4] = [
    words("deliveries", |row| row.deliveries.clone()),
    number("number", |row| thousands(row.number.into())),
    number("cents for 100", |row| {
        let price = row.price.map(u64::from);
        price.map_or(String::new(), thousands)
    }),
    number("cents", |row| {
        let (cents, rest) = (row.hundredths / 100, row.hundredths % 100);
        format!("{}.{rest:02}", thousands(cents))
    }),
];

/// A line a band, and the total.
fn bill(count: u32, priced: &[Priced], total: Total) -> Vec<Row> {
    let bands = priced.iter().map(|of| Row {
        deliveries: match of.number() {
            1 => thousands(of.first.into()),
            _ => format!(
                "{} to {}",
                thousands(of.first.into()),
                thousands(of.last.into())
            ),
        },
        number: of.number(),
        price: Some(of.price),
        hundredths: of.hundredths,
    });
    let total = Row {
        deliveries: "total".to_string(),
        number: count,
        price: None,
        hundredths: hundredths(total),
    };
    bands.chain([total]).collect()
}

/// With a refusal there are no bands, and cents and remainder are 0, as the library returns them.
fn json(count: u32, priced: &[Priced], total: Total, refused: Option<&Refused>) -> Json {
    let number = |number: u32| Json::Number(number.into());
    let band = |of: &Priced| {
        Json::object([
            ("first", number(of.first)),
            ("last", number(of.last)),
            ("number", number(of.number())),
            ("price", number(of.price)),
            ("cents", Json::Number(of.hundredths / 100)),
            ("remainder", Json::Number(of.hundredths % 100)),
        ])
    };
    Json::object([
        ("refusal", Json::or_null(refused.map(Refused::json))),
        ("count", number(count)),
        ("bands", Json::List(priced.iter().map(band).collect())),
        ("cents", number(total.cents)),
        ("remainder", number(total.remainder)),
    ])
}
