//! Price sheets as text.

use super::text::{expected, number, Mistake, Text};
use dictionary::price::{Band, MOST_BANDS};
use std::io::BufRead;

/// The bands of a text that are kept: with one more than the library takes it turns down the sheet, as
/// it would a longer one.
const MOST_KEPT: usize = MOST_BANDS + 1;

/// A price sheet and the lines that say it, a line a band:
///
/// ```text
/// # Comments and blank lines are as in a list of steps.
/// up to 100: 2500   # deliveries up to number 100, at 2500 cents for a hundred
/// up to 500: 1990   # deliveries 101 to 500
/// ```
///
/// Both are any numbers of 32 bits, and bands any number of lines: what is turned down by the rules is
/// the library's to say.
///
/// ```
/// use cli::notation::PriceSheet;
/// let sheet = PriceSheet::read("up to 1: 2\n\nup to 256: 9 # cents\n".as_bytes()).unwrap();
/// assert_eq!(sheet.bytes, [1, 0, 0, 0, 2, 0, 0, 0, 0, 1, 0, 0, 9, 0, 0, 0]);
/// assert_eq!((sheet.line_of(0), sheet.line_of(1)), (Some(1), Some(3)));
/// let mistake = PriceSheet::read("up to 1 2\n".as_bytes()).unwrap_err();
/// assert_eq!(mistake.to_string(), "1: expected `up to DELIVERY: CENTS`, found `up to 1 2`");
/// ```
#[derive(Clone, Default, PartialEq, Eq, Debug)]
pub struct PriceSheet {
    /// The records of the bands; of a text with too many, the first few.
    pub bytes: Vec<u8>,
    /// All bands, kept or not.
    pub count: usize,
    /// The line of each band that is kept; none if no lines say them.
    lines: Vec<usize>,
}

impl PriceSheet {
    /// Reads a text to its end.
    pub fn read(text: impl BufRead) -> Result<PriceSheet, Mistake> {
        let mut text = Text::new(text);
        let mut sheet = PriceSheet::default();
        while let Some(said) = text.next_line()? {
            let band = read_band(&said).map_err(|message| text.mistake(message))?;
            if sheet.count < MOST_KEPT {
                sheet.bytes.extend(<[u8; Band::BYTES]>::from(band));
                sheet.lines.push(text.line());
            }
            sheet.count += 1;
        }
        Ok(sheet)
    }

    /// Records that no lines say.
    pub fn of_records(bytes: Vec<u8>) -> PriceSheet {
        PriceSheet {
            count: bytes.len() / Band::BYTES,
            bytes,
            lines: Vec::new(),
        }
    }

    /// The line that says a band, from 0; `None` if there is none.
    pub fn line_of(&self, band: usize) -> Option<usize> {
        self.lines.get(band).copied()
    }
}

fn read_band(said: &str) -> Result<Band, String> {
    let form = || expected("`up to DELIVERY: CENTS`", &words(said));
    let (band, price) = said.split_once(':').ok_or_else(form)?;
    let (band, price) = (words(band), words(price));
    let (["up", "to", last], [price]) = (&band[..], &price[..]) else {
        return Err(form());
    };
    Ok(Band {
        last: number("a delivery", last, u32::MAX)?,
        price: number("whole cents for a hundred, in digits,", price, u32::MAX)?,
    })
}

fn words(text: &str) -> Vec<&str> {
    text.split_whitespace().collect()
}

/// A band in the notation.
///
/// ```
/// let band = dictionary::price::Band { last: 100, price: 2500 };
/// assert_eq!(cli::notation::band_line(band), "up to 100: 2500");
/// ```
pub fn band_line(Band { last, price }: Band) -> String {
    format!("up to {last}: {price}")
}
