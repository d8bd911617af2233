//! Prices of deliveries: sheets worked by hand, each number at its edge, the order of the tests, and random
//! calls. Their file knows neither the queue nor the desk.

use crate::decimal::bytes;
use crate::faults;
use crate::met::Met;
use crate::row::{Row, Statement};
use reference::price::PriceResult;
use reference::price_calls::PriceCall;
use reference::price_cases::BILL_CASES;
use reference::price_sheets::{billed, faultless, refused, FAULTS};
use reference::random::Random;

/// The definitions that the prover computes with.
const UNFOLDED: &str = "price_rules priced";

/// Deliveries of a random call: the definition adds them one by one, which takes the prover long for many.
const MOST: u32 = 60;

/// The fixed calls, and so many random ones of this seed.
pub fn rows(how_many: u64, seed: u64) -> Vec<Row> {
    [
        worked_by_hand(),
        along_a_sheet(),
        first_tests(),
        counts(),
        lengths(),
        numbers_of_bands(),
        neighbours(),
        prices(),
        bands_before_prices(),
        random(how_many, seed),
    ]
    .into_iter()
    .flatten()
    .collect()
}

/// The theorem that the definition gives what the reference gives.
fn row(about: impl std::fmt::Display, call: &PriceCall) -> Row {
    let priced = call.price();
    let theorem = Statement::equal(
        "price",
        &format!("price_deliveries {} {}", call.count, bytes(&call.sheet())),
        &format!(
            "priced {} {} {}",
            priced.refusal, priced.cents, priced.remainder
        ),
    );
    Row {
        about: format!("price: {about}"),
        met: met(call, priced),
        statements: vec![theorem.by(UNFOLDED)],
    }
}

/// The number, and the cases that a bill shows.
fn met(call: &PriceCall, priced: PriceResult) -> Vec<Met> {
    let mut met = vec![Met::new("price", priced.refusal)];
    if priced.refusal == 0 {
        let shown = BILL_CASES.into_iter().filter(|x| x.is_shown(call, priced));
        met.extend(shown.map(|case| Met::new("bill", case.name())));
    }
    met
}

fn worked_by_hand() -> Vec<Row> {
    let sheets = [billed(), refused()].concat();
    sheets.iter().map(|x| row(x.about, &x.call)).collect()
}

/// Each count from none to past the last end, wherever that is; the first band is empty.
fn along_a_sheet() -> Vec<Row> {
    let mut rows = Vec::new();
    for last_end in [7, 8, u32::MAX] {
        for count in 0..=10 {
            let bands = [(0, 5000), (1, 70), (4, 101), (6, 99), (last_end, 233)];
            let about = format!("{count} deliveries, the last end {last_end}");
            rows.push(row(about, &PriceCall::new(count, &bands)));
        }
    }
    rows
}

fn first_tests() -> Vec<Row> {
    let named = FAULTS.map(|(number, about, make)| (format!("{number} ({about})"), make));
    let calls = faults::first_tests(&faultless(), &named);
    calls.iter().map(|(about, call)| row(about, call)).collect()
}

/// Number 2 past its edge, with a sheet in which nothing is wrong and with no sheet. The bills worked by
/// hand are on the other side.
fn counts() -> Vec<Row> {
    let mut rows = Vec::new();
    for count in [4001, 4002, 4096, 1 << 31, u32::MAX] {
        for bands in [&[(1, 1)][..], &[]] {
            let about = format!("{count} deliveries, {} bands", bands.len());
            rows.push(row(about, &PriceCall::new(count, bands)));
        }
    }
    rows
}

/// Number 4, on either side of its edge: the start of a sheet of nine bands.
fn lengths() -> Vec<Row> {
    let mut rows = Vec::new();
    for length in (0..=17).chain([23, 25, 55, 57, 63, 64, 65, 71, 72]) {
        let mut call = faultless();
        call.lengthen(9);
        let torn = call.sheet()[length / 8 * 8..length].to_vec();
        call.bands.truncate(length / 8);
        let call = PriceCall { torn, ..call };
        rows.push(row(format!("{length} bytes"), &call));
    }
    rows
}

/// Number 15 by how many bands there are.
fn numbers_of_bands() -> Vec<Row> {
    let of = |bands| {
        let mut call = PriceCall::new(3, &[]);
        call.lengthen(bands);
        row(format!("{bands} bands"), &call)
    };
    (0..=10)
        .chain([16, 17, 32, 33, 40, 64, 65, 257])
        .map(of)
        .collect()
}

/// Eight bands of three deliveries and one of them more.
fn eight() -> PriceCall {
    let bands: Vec<(u32, u32)> = (1..9).map(|at| (3 * at, 10 * at)).collect();
    PriceCall::new(25, &bands)
}

/// Number 15 by two neighbours of eight: one apart, equal, or falling by one.
fn neighbours() -> Vec<Row> {
    let mut rows = Vec::new();
    for at in 1..8 {
        for (about, by) in [("one apart", 1), ("equal", 0), ("falling by one", -1)] {
            let mut call = eight();
            call.bands[at].end = call.bands[at - 1].end.saturating_add_signed(by);
            rows.push(row(format!("ends {at} and {} {about}", at + 1), &call));
        }
    }
    rows
}

/// Number 16, on either side of its edge, in the first band, between others and in the last.
fn prices() -> Vec<Row> {
    let mut rows = Vec::new();
    for at in [0, 4, 7] {
        for price in [999_999, 1_000_000, 1_000_001, 1 << 24, 1 << 31, u32::MAX] {
            let mut call = eight();
            call.bands[at].price = price;
            rows.push(row(format!("{price} in band {}", at + 1), &call));
        }
    }
    rows
}

/// All of 15 before any 16: each reason of 15, with a price too high in each of the bands.
fn bands_before_prices() -> Vec<Row> {
    let mut rows = Vec::new();
    for (_, about, make) in FAULTS.into_iter().filter(|&(number, ..)| number == 15) {
        let banded = faultless().with(make);
        for at in 0..banded.bands.len() {
            let call = banded.with(|call| call.bands[at].price = 1_000_001);
            rows.push(row(format!("{about}, too high in band {}", at + 1), &call));
        }
    }
    rows
}

/// In at most two cases of three something is wrong.
fn random(how_many: u64, seed: u64) -> Vec<Row> {
    let mut random = Random::new(seed);
    let mut call = |_| row("random", &PriceCall::hostile(&mut random, MOST));
    (0..how_many).map(&mut call).collect()
}
