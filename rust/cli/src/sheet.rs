//! A price sheet, and the call of the proved library on it.

use crate::failure::Failure;
use crate::files::{self, Holds, Name, Source};
use crate::list::text_mistake;
use crate::notation::PriceSheet;
use crate::tool::Tool;
use dictionary::price::{self, Band, Total};

/// A sheet: a text, or binary records.
pub struct Sheet {
    pub name: Name,
    pub is_text: bool,
    sheet: PriceSheet,
}

impl Sheet {
    pub fn read(tool: &mut Tool, name: Name) -> Result<Sheet, Failure> {
        tool.reading(&name);
        let source = Source::open(&name)?;
        let is_text = source.holds != Holds::Records;
        let sheet = match is_text {
            true => {
                PriceSheet::read(source.text()).map_err(|mistake| text_mistake(&name, mistake))?
            }
            false => PriceSheet::of_records(source.bytes()?),
        };
        tool.progress.say(format!("pricing by {name}"));
        Ok(Sheet {
            name,
            is_text,
            sheet,
        })
    }

    /// The length in bytes.
    pub fn length(&self) -> usize {
        self.sheet.bytes.len()
    }

    /// How many bands there are.
    pub fn count(&self) -> usize {
        self.sheet.count
    }

    /// The whole bands that are kept, which are all of a sheet that the library takes.
    pub fn bands(&self) -> impl Iterator<Item = Band> + '_ {
        let bands: &[[u8; Band::BYTES]] = self.sheet.bytes.as_chunks().0;
        bands.iter().map(|&bytes| bytes.into())
    }

    /// The line of a text that says a band, from 0.
    pub fn line_of(&self, band: usize) -> Option<usize> {
        self.sheet.line_of(band)
    }

    /// What is told of a text that was taken for records.
    pub fn spoilt_text(&self) -> Option<String> {
        let records = (!self.is_text).then_some(&self.sheet.bytes[..]);
        records.and_then(files::spoilt_text)
    }

    /// What so many deliveries cost.
    pub fn total(&self, count: u32) -> Total {
        price::deliveries(count, &self.sheet.bytes)
    }
}
