//! The legal dictionary's price sheet: what a firm pays for its deliveries.

use crate::records::low_first_32;

/// Deliveries of one bill.
pub const MOST_DELIVERIES: u32 = 4000;

/// Bands of a sheet.
pub const MOST_BANDS: usize = 8;

/// In cents for a hundred deliveries.
pub const HIGHEST_PRICE: u32 = 1_000_000;

pub const BAND_BYTES: usize = 8;

#[derive(Clone, Copy, Default, PartialEq, Eq, Debug)]
pub struct PriceResult {
    /// The paper's number, 0 for none; with any other the rest is zeros.
    pub refusal: u32,
    /// Whole cents.
    pub cents: u32,
    /// Hundredths of a cent, 0 to 99.
    pub remainder: u32,
}

/// Why a bill is turned down.
#[derive(Clone, Copy, PartialEq, Eq, Hash, Debug)]
enum PriceRefusal {
    /// More than 4,000 deliveries.
    Count,
    /// The sheet isn't whole records.
    SheetTorn,
    /// No bands, more than 8, or ends that do not rise strictly.
    Bands,
    /// A price over 1,000,000.
    PriceTooHigh,
}

/// The paper's number; 0 stands for no refusal.
fn price_number(refusal: Option<PriceRefusal>) -> u32 {
    match refusal {
        None => 0,
        Some(PriceRefusal::Count) => 2,
        Some(PriceRefusal::SheetTorn) => 4,
        Some(PriceRefusal::Bands) => 15,
        Some(PriceRefusal::PriceTooHigh) => 16,
    }
}

/// A record of the sheet.
#[derive(Clone, Copy, PartialEq, Eq, Debug)]
pub struct Band {
    /// The number of its last delivery; the first delivery of all is 1.
    pub end: u32,
    /// In cents for a hundred deliveries, which is the same in hundredths of a cent for one.
    pub price: u32,
}

impl Band {
    fn read(record: &[u8]) -> Band {
        Band {
            end: low_first_32(&record[..4]),
            price: low_first_32(&record[4..]),
        }
    }

    pub fn bytes(self) -> [u8; BAND_BYTES] {
        let mut bytes = [0; BAND_BYTES];
        bytes[..4].copy_from_slice(&self.end.to_le_bytes());
        bytes[4..].copy_from_slice(&self.price.to_le_bytes());
        bytes
    }
}

pub fn price_deliveries(count: u32, sheet: &[u8]) -> PriceResult {
    match hundredths(count, sheet) {
        Ok(sum) => PriceResult {
            refusal: price_number(None),
            cents: whole(sum / 100),
            remainder: whole(sum % 100),
        },
        Err(refusal) => PriceResult {
            refusal: price_number(Some(refusal)),
            ..PriceResult::default()
        },
    }
}

/// Tests 2, 4, 15 and 16; then the sum of the deliveries' prices, one after the other.
fn hundredths(count: u32, sheet: &[u8]) -> Result<u64, PriceRefusal> {
    if count > MOST_DELIVERIES {
        return Err(PriceRefusal::Count);
    }
    let bands = accept(sheet)?;
    let mut sum = 0;
    for delivery in 1..=count {
        sum += u64::from(price_of(delivery, &bands));
    }
    Ok(sum)
}

/// The bands of the sheet. All of 15 is tested before any price.
fn accept(sheet: &[u8]) -> Result<Vec<Band>, PriceRefusal> {
    if !sheet.len().is_multiple_of(BAND_BYTES) {
        return Err(PriceRefusal::SheetTorn);
    }
    let bands: Vec<Band> = sheet.chunks(BAND_BYTES).map(Band::read).collect();
    if bands.is_empty() || bands.len() > MOST_BANDS {
        return Err(PriceRefusal::Bands);
    }
    if bands.windows(2).any(|two| two[0].end >= two[1].end) {
        return Err(PriceRefusal::Bands);
    }
    if bands.iter().any(|band| band.price > HIGHEST_PRICE) {
        return Err(PriceRefusal::PriceTooHigh);
    }
    Ok(bands)
}

/// The price of the band that a delivery falls in: the first that does not end before it. Beyond the last
/// band it is the price of that one.
fn price_of(delivery: u32, bands: &[Band]) -> u32 {
    let own = bands.iter().find(|band| delivery <= band.end);
    own.or(bands.last()).expect("a sheet has bands").price
}

/// The highest bill, 4,000 deliveries at the highest price, is 40,000,000 cents.
fn whole(number: u64) -> u32 {
    u32::try_from(number).expect("no bill is higher")
}
