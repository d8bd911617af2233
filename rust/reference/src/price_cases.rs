//! What a bill can show, so that tests can tell what they met.

use crate::price::{Band, PriceResult, HIGHEST_PRICE, MOST_BANDS, MOST_DELIVERIES};
use crate::price_calls::PriceCall;

#[derive(Clone, Copy, PartialEq, Eq, Hash, Debug)]
pub enum BillCase {
    NoDeliveries,
    AllDeliveries,
    /// The last delivery is the last of its band, or the first of the next, which has another price.
    UpToAnEnd,
    PastAnEnd,
    BeyondTheLast,
    /// A first end of 0, with bands after it.
    EmptyFirst,
    FarEnd,
    OneBand,
    EightBands,
    Remainder,
    /// Rounded band by band, the cents would be less.
    CarriedCent,
    HighestPrice,
}

pub const BILL_CASES: [BillCase; 12] = [
    BillCase::NoDeliveries,
    BillCase::AllDeliveries,
    BillCase::UpToAnEnd,
    BillCase::PastAnEnd,
    BillCase::BeyondTheLast,
    BillCase::EmptyFirst,
    BillCase::FarEnd,
    BillCase::OneBand,
    BillCase::EightBands,
    BillCase::Remainder,
    BillCase::CarriedCent,
    BillCase::HighestPrice,
];

impl BillCase {
    /// The case in plain words.
    pub fn name(self) -> &'static str {
        match self {
            BillCase::NoDeliveries => "no deliveries",
            BillCase::AllDeliveries => "all 4,000",
            BillCase::UpToAnEnd => "up to a band's end",
            BillCase::PastAnEnd => "one past a band's end",
            BillCase::BeyondTheLast => "beyond the last band",
            BillCase::EmptyFirst => "an empty first band",
            BillCase::FarEnd => "an end above 4,000",
            BillCase::OneBand => "one band",
            BillCase::EightBands => "eight bands",
            BillCase::Remainder => "a remainder",
            BillCase::CarriedCent => "a cent of two bands' remainders",
            BillCase::HighestPrice => "the largest price",
        }
    }

    /// Whether this call, which is not refused, and its bill show it.
    pub fn is_shown(self, call: &PriceCall, bill: PriceResult) -> bool {
        let PriceCall { count, bands, .. } = call;
        let last_end = bands[bands.len() - 1].end;
        let sums = by_band(*count, bands).into_iter();
        match self {
            BillCase::NoDeliveries => *count == 0,
            BillCase::AllDeliveries => *count == MOST_DELIVERIES,
            BillCase::UpToAnEnd => *count > 0 && has_change_after(bands, *count),
            BillCase::PastAnEnd => *count > 0 && has_change_after(bands, count - 1),
            BillCase::BeyondTheLast => *count > last_end,
            BillCase::EmptyFirst => bands[0].end == 0 && bands.len() > 1 && *count > 0,
            BillCase::FarEnd => last_end > MOST_DELIVERIES,
            BillCase::OneBand => bands.len() == 1,
            BillCase::EightBands => bands.len() == MOST_BANDS,
            BillCase::Remainder => bill.remainder > 0,
            BillCase::CarriedCent => sums.map(|sum| sum % 100).sum::<u64>() >= 100,
            BillCase::HighestPrice => {
                let mut charged = bands.iter().zip(sums);
                charged.any(|(band, sum)| band.price == HIGHEST_PRICE && sum > 0)
            }
        }
    }
}

/// Whether this delivery is the last at its price.
fn has_change_after(bands: &[Band], delivery: u32) -> bool {
    let mut neighbours = bands.windows(2);
    neighbours.any(|two| two[0].end == delivery && two[0].price != two[1].price)
}

/// Hundredths of a cent for the deliveries of each band of a proper sheet, as many times its price.
pub fn by_band(count: u32, bands: &[Band]) -> Vec<u64> {
    let mut sums = Vec::new();
    let mut before = 0;
    for (at, band) in bands.iter().enumerate() {
        let is_last = at + 1 == bands.len();
        let up_to = if is_last { count } else { count.min(band.end) };
        sums.push(u64::from(up_to - before) * u64::from(band.price));
        before = up_to;
    }
    sums
}
