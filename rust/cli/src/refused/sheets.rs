//! What is told of a refused price sheet.

use super::{Place, Reason, Refused};
use crate::sheet::Sheet;
use crate::words::torn;
use dictionary::price::{self, Band, Refusal, MOST_BANDS, MOST_PRICE};

impl Refused {
    /// A refusal of so many deliveries by a sheet.
    pub fn of_sheet(sheet: &Sheet, deliveries: u32, refusal: Refusal) -> Refused {
        let (band, standing) = match refusal {
            Refusal::Count => (None, Some(format!("the count is {deliveries}"))),
            Refusal::SheetTorn => (None, None),
            Refusal::Bands => wrong_bands(sheet),
            Refusal::PriceTooHigh => too_high(sheet),
        };
        let cause = match refusal {
            Refusal::Count => None,
            Refusal::SheetTorn => {
                let torn = torn(sheet.length(), Band::BYTES, "band");
                let torn = || format!("{torn} of {}", sheet.name);
                Some(sheet.spoilt_text().unwrap_or_else(torn))
            }
            Refusal::Bands | Refusal::PriceTooHigh => {
                sheet.spoilt_text().or_else(|| other_reading(sheet))
            }
        };
        Refused {
            reason: Reason::of_sheet(refusal),
            record: band.map(|band| Place::of_band(sheet, band)),
            standing,
            cause,
        }
    }
}

/// The first band, from 0, that is too much or does not end after the one before it, and how.
fn wrong_bands(sheet: &Sheet) -> (Option<usize>, Option<String>) {
    match sheet.count() {
        0 => return (None, Some("the sheet has no bands".to_string())),
        bands if bands > MOST_BANDS => {
            let told = format!("the sheet has {bands} bands");
            return (Some(MOST_BANDS), Some(told));
        }
        _ => {}
    }
    let bands: Vec<Band> = sheet.bands().collect();
    let mut pairs = bands.windows(2);
    let before = pairs.position(|pair| pair[1].last <= pair[0].last);
    let told = before.map(|before| {
        let ends = |band: usize| format!("at delivery {}", bands[band].last);
        let (band, next) = (before + 1, before + 2);
        let (end, next_end) = (ends(before), ends(before + 1));
        format!("band {band} ends {end}, and band {next} after it {next_end}")
    });
    (before.map(|before| before + 1), told)
}

/// The first band, from 0, whose price is too high, and that price.
fn too_high(sheet: &Sheet) -> (Option<usize>, Option<String>) {
    let mut bands = sheet.bands().enumerate();
    let found = bands.find(|(_, band)| band.price > MOST_PRICE);
    let told = |(_, band): (_, Band)| format!("its price is {} cents for a hundred", band.price);
    (found.map(|(band, _)| band), found.map(told))
}

/// Another reading of the bands with which the sheet is taken. The lines of a text say what each number
/// is, so that of a text the order alone may be another.
fn other_reading(sheet: &Sheet) -> Option<String> {
    let bands: Vec<Band> = sheet.bands().take(MOST_BANDS + 1).collect();
    let mut in_order = bands.clone();
    in_order.sort_by_key(|band| band.last);
    let exchanged = |&Band { last, price }: &Band| Band {
        last: price,
        price: last,
    };
    let high_first = |&Band { last, price }: &Band| Band {
        last: last.swap_bytes(),
        price: price.swap_bytes(),
    };
    let readings = [
        ("its bands in the order of their ends", in_order),
        (
            "the two numbers of each band exchanged",
            bands.iter().map(exchanged).collect(),
        ),
        (
            "numbers that have their high byte first",
            bands.iter().map(high_first).collect(),
        ),
    ];
    let possible = if sheet.is_text { 1 } else { readings.len() };
    let taken = readings[..possible]
        .iter()
        .filter(|(_, bands)| is_taken(bands));
    let told: Vec<&str> = taken.map(|(told, _)| *told).collect();
    let with = told.join(", or with ");
    (!told.is_empty()).then(|| format!("with {with} the sheet is taken"))
}

/// Whether the library takes a sheet of these bands; it is tested for every count alike.
fn is_taken(bands: &[Band]) -> bool {
    let bytes = bands.iter().map(|&band| <[u8; Band::BYTES]>::from(band));
    let sheet: Vec<u8> = bytes.flatten().collect();
    price::deliveries(0, &sheet).refusal.is_none()
}
