//! Why a price is not told.

use crate::refusal::with_number;
use std::error::Error;
use std::fmt;

/// Why a count or a sheet is turned down; the discriminants are its numbers. Shown, it is a line of text.
///
/// It is the first test that fails, in the order of the numbers. So a sheet is tested for 15 as a whole
/// before any price is, and also for a count of 0:
///
/// ```
/// use dictionary::price::{deliveries, Refusal};
/// let sheet = |bands: &[[u32; 2]]| -> Vec<u8> {
///     bands.iter().flatten().flat_map(|number| number.to_le_bytes()).collect()
/// };
/// let refusal = |count, sheet: &[u8]| deliveries(count, sheet).refusal;
/// let too_high = sheet(&[[100, 1_000_001], [200, 2000]]);
/// assert_eq!(refusal(0, &too_high), Some(Refusal::PriceTooHigh));
/// let not_rising = sheet(&[[100, 1_000_001], [100, 2000]]);
/// assert_eq!(refusal(0, &not_rising), Some(Refusal::Bands));
/// assert_eq!(refusal(0, &not_rising[..9]), Some(Refusal::SheetTorn));
/// assert_eq!(refusal(4001, &not_rising[..9]), Some(Refusal::Count));
/// ```
#[derive(Clone, Copy, PartialEq, Eq, Hash, Debug)]
#[repr(u32)]
pub enum Refusal {
    /// The count is over 4,000.
    Count = 2,
    /// The sheet bytes are not a multiple of 8.
    SheetTorn = 4,
    /// No bands, more than 8, or ends that do not rise strictly.
    Bands = 15,
    /// A price is over 1,000,000 cents for a hundred.
    PriceTooHigh = 16,
}

impl Refusal {
    /// All of them, in the order of their numbers, which is that of the tests.
    pub const ALL: [Refusal; 4] = [
        Refusal::Count,
        Refusal::SheetTorn,
        Refusal::Bands,
        Refusal::PriceTooHigh,
    ];

    /// Its number.
    ///
    /// ```
    /// assert_eq!(dictionary::price::Refusal::PriceTooHigh.number(), 16);
    /// ```
    pub fn number(self) -> u32 {
        self as u32
    }

    /// The refusal with this number; `None` for 0, and for a number that the price sheet does not have.
    ///
    /// ```
    /// use dictionary::price::Refusal;
    /// assert_eq!(Refusal::from_number(15), Some(Refusal::Bands));
    /// assert_eq!(Refusal::from_number(0), None);
    /// assert_eq!(Refusal::from_number(14), None);
    /// ```
    pub fn from_number(number: u32) -> Option<Refusal> {
        with_number(&Self::ALL, Refusal::number, number)
    }
}

impl fmt::Display for Refusal {
    fn fmt(&self, f: &mut fmt::Formatter) -> fmt::Result {
        f.write_str(match self {
            Refusal::Count => "the count of deliveries is over 4,000",
            Refusal::SheetTorn => "the sheet bytes are not a multiple of 8",
            Refusal::Bands => "the bands are not 1 to 8, or their ends do not rise strictly",
            Refusal::PriceTooHigh => "a price is over 1,000,000 cents for a hundred",
        })
    }
}

impl Error for Refusal {}

#[cfg(test)]
mod tests {
    use super::Refusal;

    #[test]
    fn numbers() {
        assert_eq!(Refusal::ALL.map(Refusal::number), [2, 4, 15, 16]);
    }
}
