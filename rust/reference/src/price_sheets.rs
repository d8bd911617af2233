//! Price sheets worked by hand: bills, and calls that are turned down.

use crate::price::{Band, PriceResult, HIGHEST_PRICE, MOST_DELIVERIES};
use crate::price_calls::PriceCall;

/// A call and what it gives.
#[derive(Clone, PartialEq, Eq, Debug)]
pub struct PriceSheet {
    pub about: &'static str,
    pub call: PriceCall,
    pub result: PriceResult,
}

/// An end and a price.
type Pair = (u32, u32);

/// 250 up to delivery 10, 199 up to 20, and 101 from there on.
const THREE: [Pair; 3] = [(10, 250), (20, 199), (30, 101)];

/// A delivery in each band but the last; each price shows in a digit of its own.
const EIGHT: [Pair; 8] = [
    (1, 1),
    (2, 10),
    (3, 100),
    (4, 1000),
    (5, 10_000),
    (6, 100_000),
    (7, 1_000_000),
    (8, 5),
];

/// 500 deliveries in each band. The prices add up to 732,322.
const FIVE_HUNDREDS: [Pair; 8] = [
    (500, 1),
    (1000, 20),
    (1500, 300),
    (2000, 4000),
    (2500, 50_000),
    (3000, 600_000),
    (3500, 70_000),
    (4000, 8001),
];

/// Sheets with their bills: at each end, of one band, of several, and of many deliveries.
pub fn billed() -> Vec<PriceSheet> {
    [at_the_ends(), of_one_band(), of_several(), of_many()].concat()
}

fn bill(
    about: &'static str,
    count: u32,
    bands: &[Pair],
    (cents, remainder): (u32, u32),
) -> PriceSheet {
    PriceSheet {
        about,
        call: PriceCall::new(count, bands),
        result: PriceResult {
            refusal: 0,
            cents,
            remainder,
        },
    }
}

/// A delivery at an end is of the band that ends; past the last end all goes on as before it.
fn at_the_ends() -> Vec<PriceSheet> {
    let of = |about, count, result| bill(about, count, &THREE, result);
    vec![
        of("no deliveries", 0, (0, 0)),
        of("one delivery", 1, (2, 50)),
        of("before the first end", 9, (22, 50)),
        of("up to the first end", 10, (25, 0)),
        // 2,500 + 199
        of("one past the first end", 11, (26, 99)),
        // 2,500 + 1,990
        of("up to the second end", 20, (44, 90)),
        of("one past the second end", 21, (45, 91)),
        // 4,490 + 1,010
        of("up to the last end", 30, (55, 0)),
        of("one past the last end", 31, (56, 1)),
    ]
}

fn of_one_band() -> Vec<PriceSheet> {
    vec![
        bill("99 at one hundredth of a cent", 99, &[(1, 1)], (0, 99)),
        bill("100 at one hundredth of a cent", 100, &[(1, 1)], (1, 0)),
        bill("free of charge", 5, &[(4, 0)], (0, 0)),
        bill("one band that ends at 0", 4, &[(0, 3)], (0, 12)),
        bill("the largest end", 2, &[(u32::MAX, 99)], (1, 98)),
        bill(
            "one at the highest price",
            1,
            &[(1, 1_000_000)],
            (10_000, 0),
        ),
    ]
}

fn of_several() -> Vec<PriceSheet> {
    let empty_first = [(0, 1_000_000), (5, 7)];
    let up_and_down = [(2, 3), (3, 0), (6, 1_000_000), (7, 1)];
    let wide = [(0x0102, 1), (0x0102_0304, 0x000a_0b0c)];
    // Without one of their bytes the ends would not rise.
    let wider = [(1, 1), (1 << 8, 20), (1 << 16, 300), (1 << 24, 4000)];
    vec![
        bill("an empty first band", 1, &empty_first, (0, 7)),
        bill(
            "an empty first band, past the last",
            6,
            &empty_first,
            (0, 42),
        ),
        bill(
            "no deliveries, an empty first band",
            0,
            &empty_first,
            (0, 0),
        ),
        bill("seven of eight bands", 7, &EIGHT, (11_111, 11)),
        bill("eight bands", 8, &EIGHT, (11_111, 16)),
        bill("past eight bands", 9, &EIGHT, (11_111, 21)),
        // 2 × 3 + 0 + 3 × 1,000,000 + 1 + 1
        bill("prices that rise and fall", 8, &up_and_down, (30_000, 8)),
        bill("a cent of two remainders", 2, &[(1, 60), (2, 40)], (1, 0)),
        // 60 + 99 + 99
        bill("two cents of three", 3, &[(1, 60), (2, 99)], (2, 58)),
        // 258 + 658,188
        bill("bytes that differ", 259, &wide, (6584, 46)),
        // 1 + 255 × 20 + 300
        bill("ends of one to four bytes", 257, &wider, (54, 1)),
        bill("neighbours of one price", 3, &[(1, 7), (2, 7)], (0, 21)),
    ]
}

/// At the last deliveries that a bill may have.
fn of_many() -> Vec<PriceSheet> {
    let above = [(3999, 0), (4001, 1), (5000, 1_000_000)];
    let last_less = [(3999, 1_000_000), (4000, 999_999)];
    let before_last = [(3998, 2), (3999, 1_000_000), (4000, 0)];
    vec![
        // 4,490 + 3,980 × 101
        bill("4,000, far past the last end", 4000, &THREE, (4064, 70)),
        bill(
            "the highest bill",
            4000,
            &[(4000, 1_000_000)],
            (40_000_000, 0),
        ),
        bill("one hundredth less", 4000, &last_less, (39_999_999, 99)),
        bill("4,000, ends above it", 4000, &above, (0, 1)),
        // 7,996 + 1,000,000
        bill("3,999, up to an end", 3999, &before_last, (10_079, 96)),
        // 500 × 732,322 - 8,001
        bill(
            "3,999 in eight bands",
            3999,
            &FIVE_HUNDREDS,
            (3_661_529, 99),
        ),
    ]
}

/// Calls that are turned down, for one reason each or for the first of several; all of 15 comes before
/// any 16.
pub fn refused() -> Vec<PriceSheet> {
    [counts(), torn(), no_bands(), ends(), prices()].concat()
}

fn refusal(about: &'static str, refusal: u32, call: PriceCall) -> PriceSheet {
    PriceSheet {
        about,
        call,
        result: PriceResult {
            refusal,
            cents: 0,
            remainder: 0,
        },
    }
}

fn counts() -> Vec<PriceSheet> {
    let of = |about, count| refusal(about, 2, PriceCall::new(count, &THREE));
    vec![
        of("one delivery too many", 4001),
        of("the largest count", u32::MAX),
        refusal("too many, no bands", 2, PriceCall::new(4001, &[])),
    ]
}

fn torn() -> Vec<PriceSheet> {
    let of = |about, bands: &[Pair], bytes: usize| {
        let call = PriceCall::new(0, bands);
        refusal(about, 4, call.with(|call| call.torn = vec![0; bytes]))
    };
    vec![
        of("one byte", &[], 1),
        of("a byte is missing", &[], 7),
        of("a byte too many", &THREE, 1),
        of("eight bands and half a record", &EIGHT, 4),
    ]
}

/// And more than eight.
fn no_bands() -> Vec<PriceSheet> {
    let nine = PriceCall::new(1, &EIGHT).with(|call| call.lengthen(9));
    vec![
        refusal("no bands", 15, PriceCall::new(1, &[])),
        refusal("no deliveries and no bands", 15, PriceCall::new(0, &[])),
        refusal("nine bands", 15, nine),
    ]
}

fn ends() -> Vec<PriceSheet> {
    let of = |about, bands: &[Pair]| refusal(about, 15, PriceCall::new(1, bands));
    let last_equal = PriceCall::new(0, &EIGHT).with(|call| call.bands[7].end = 7);
    vec![
        of("equal ends", &[(5, 1), (5, 2)]),
        of("ends equal at 0", &[(0, 1), (0, 1)]),
        of(
            "the largest end twice",
            &[(1, 1), (u32::MAX, 1), (u32::MAX, 1)],
        ),
        of("ends that fall by one", &[(5, 1), (4, 1)]),
        of("ends that fall after they rose", &[(5, 1), (9, 1), (7, 1)]),
        of("an end of 0 after the first", &[(1, 1), (0, 1)]),
        refusal("the last two of eight ends are equal", 15, last_equal),
        of(
            "equal ends after a price too high",
            &[(1, 1_000_001), (5, 1), (5, 1)],
        ),
        of(
            "equal ends before a price too high",
            &[(5, 1), (5, 1), (6, u32::MAX)],
        ),
    ]
}

fn prices() -> Vec<PriceSheet> {
    let of = |about, count, bands: &[Pair]| refusal(about, 16, PriceCall::new(count, bands));
    let last = PriceCall::new(1, &EIGHT).with(|call| call.bands[7].price = 1_000_001);
    vec![
        of("one cent too high", 1, &[(1, 1_000_001)]),
        of("the largest number as a price", 1, &[(1, u32::MAX)]),
        of("too high in its last byte alone", 1, &[(1, 1 << 24)]),
        of("too high for no deliveries", 0, &[(1, 1_000_001)]),
        of("too high in an empty band", 1, &[(0, 1_000_001), (1, 1)]),
        of(
            "too high past the last delivery",
            1,
            &[(1, 1), (2, 1_000_001)],
        ),
        refusal("too high in the last of eight", 16, last),
    ]
}

/// What a test finds: its number, what it is, and how it is made of `faultless`.
pub type Fault = (u32, &'static str, fn(&mut PriceCall));

/// In the order of the tests. All can be made together, in this order.
pub const FAULTS: [Fault; 7] = [
    (2, "4,001 deliveries", |call| {
        call.count = MOST_DELIVERIES + 1
    }),
    (4, "a byte more", |call| call.torn = vec![7]),
    (15, "equal ends", |call| {
        call.bands[2].end = call.bands[1].end
    }),
    (15, "ends that fall", |call| {
        call.bands[3].end = call.bands[2].end - 1;
    }),
    (15, "nine bands", |call| call.lengthen(9)),
    (16, "in the first band", |call| {
        too_high(call.bands.first_mut())
    }),
    (16, "in the last band", |call| {
        too_high(call.bands.last_mut())
    }),
];

fn too_high(band: Option<&mut Band>) {
    band.expect("a band").price = HIGHEST_PRICE + 1;
}

/// Five deliveries and five bands, in which nothing is wrong.
pub fn faultless() -> PriceCall {
    PriceCall::new(5, &[(2, 30), (4, 20), (6, 10), (8, 5), (10, 1)])
}
