//! The dictionary's price sheet: what a firm pays for a number of deliveries. The code is the proved
//! Rattle library; it knows nothing of the queue, and its archive is one of its own.
//!
//! A sheet has 1 to 8 bands, 8 bytes each: the number of the band's last delivery, which count from 1,
//! and its price in cents for a hundred, both 32 bits, low byte first. A delivery costs the price of
//! the band that it falls in, and beyond the last band that of the last.
//!
//! ```
//! use dictionary::price::{self, Band, Total};
//! let bands = [Band { last: 100, price: 2500 }, Band { last: 200, price: 1999 }];
//! let sheet = bands.map(<[u8; Band::BYTES]>::from).concat();
//! // 100 at 2500 and 150 at 1999: 250,000 and 299,850 hundredths of a cent.
//! let total = price::deliveries(250, &sheet);
//! assert_eq!(total, Total { refusal: None, cents: 5498, remainder: 50 });
//! ```

#[cfg_attr(not(archive = "price"), path = "absent.rs")]
mod archive;
mod refusal;

pub use refusal::Refusal;

use crate::returned::refusal_of;

/// Whether the archive of the price sheet was there when this crate was built. If not, [`deliveries`]
/// panics; a program asks first, and says [`NOT_BUILT`].
pub const BUILT: bool = cfg!(archive = "price");

/// What to do where the archive was not there, and how long it takes.
pub const NOT_BUILT: &str = "the proved price sheet is not built: run `.ci/archive price` in the \
    repository (a few minutes, it proves it), then build this program again";

/// The most deliveries that are priced.
pub const MOST_DELIVERIES: u32 = 4000;

/// The most bands of a sheet.
pub const MOST_BANDS: usize = 8;

/// The highest price of a band, in cents for a hundred.
pub const MOST_PRICE: u32 = 1_000_000;

/// A band of a sheet; its bytes are the two numbers, low byte first.
///
/// ```
/// use dictionary::price::Band;
/// let band = Band { last: 100, price: 2500 };
/// let bytes = [100, 0, 0, 0, 0xc4, 9, 0, 0];
/// assert_eq!(<[u8; Band::BYTES]>::from(band), bytes);
/// assert_eq!(Band::from(bytes), band);
/// ```
#[derive(Clone, Copy, PartialEq, Eq, Debug)]
pub struct Band {
    /// The number of its last delivery, which count from 1; of the sheet's last band it changes no price.
    pub last: u32,
    /// Cents for a hundred deliveries.
    pub price: u32,
}

impl Band {
    pub const BYTES: usize = 8;
}

impl From<Band> for [u8; Band::BYTES] {
    fn from(Band { last, price }: Band) -> [u8; Band::BYTES] {
        let both = u64::from(price) << 32 | u64::from(last);
        both.to_le_bytes()
    }
}

impl From<[u8; Band::BYTES]> for Band {
    fn from(bytes: [u8; Band::BYTES]) -> Band {
        let both = u64::from_le_bytes(bytes);
        Band {
            last: both as u32,
            price: (both >> 32) as u32,
        }
    }
}

/// What a number of deliveries costs.
#[derive(Clone, Copy, PartialEq, Eq, Debug)]
pub struct Total {
    /// Why the count or the sheet was turned down; the other two are 0 then.
    pub refusal: Option<Refusal>,
    /// Whole cents.
    pub cents: u32,
    /// The rest in hundredths of a cent, 0 to 99.
    pub remainder: u32,
}

/// What so many deliveries cost, 0 to 4,000 of them, by a sheet.
///
/// 100 × cents + remainder is the sum of each delivery's price, so that nothing is rounded.
///
/// ```
/// use dictionary::price::{deliveries, Band, Refusal, Total};
/// let bands = [Band { last: 0, price: 9 }, Band { last: 2, price: 150 }, Band { last: 3, price: 1 }];
/// let sheet = bands.map(<[u8; Band::BYTES]>::from).concat();
/// let told = |count| {
///     let Total { refusal, cents, remainder } = deliveries(count, &sheet);
///     assert_eq!(refusal, None);
///     (cents, remainder)
/// };
/// assert_eq!(told(0), (0, 0));
/// assert_eq!(told(1), (1, 50));
/// assert_eq!(told(2), (3, 0));
/// assert_eq!(told(3), (3, 1));
/// assert_eq!(told(4000), (42, 98));
/// let refused = Total { refusal: Some(Refusal::Count), cents: 0, remainder: 0 };
/// assert_eq!(deliveries(4001, &sheet), refused);
/// ```
pub fn deliveries(count: u32, sheet: &[u8]) -> Total {
    let totalled = archive::deliveries(count, sheet);
    Total {
        refusal: refusal_of(totalled.refusal, Refusal::from_number),
        cents: totalled.cents,
        remainder: totalled.remainder,
    }
}
