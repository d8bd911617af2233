//! Generator of calls for a price: proper sheets, and ones with something wrong.

use crate::hostile::below;
use crate::price::{
    price_deliveries, Band, PriceResult, BAND_BYTES, HIGHEST_PRICE, MOST_BANDS, MOST_DELIVERIES,
};
use crate::random::Random;

/// The input of a call. Any sheet is some bands, and after them less than a record.
#[derive(Clone, PartialEq, Eq, Debug)]
pub struct PriceCall {
    pub count: u32,
    pub bands: Vec<Band>,
    /// Empty if the sheet is whole records.
    pub torn: Vec<u8>,
}

/// What is made wrong in a call.
#[derive(Clone, Copy, PartialEq, Eq, Debug)]
enum Wrong {
    Count,
    Torn,
    NoBands,
    TooManyBands,
    EqualEnds,
    FallingEnds,
    Price,
    /// A band of random bytes.
    Noise,
}

const WRONGS: [Wrong; 9] = [
    Wrong::Count,
    Wrong::Torn,
    Wrong::NoBands,
    Wrong::TooManyBands,
    Wrong::EqualEnds,
    Wrong::FallingEnds,
    Wrong::Price,
    Wrong::Price,
    Wrong::Noise,
];

impl PriceCall {
    /// A whole sheet with these ends and prices.
    pub fn new(count: u32, bands: &[(u32, u32)]) -> PriceCall {
        let band = |&(end, price)| Band { end, price };
        PriceCall {
            count,
            bands: bands.iter().map(band).collect(),
            torn: Vec::new(),
        }
    }

    pub fn sheet(&self) -> Vec<u8> {
        let bands = self.bands.iter().flat_map(|band| band.bytes());
        bands.chain(self.torn.iter().copied()).collect()
    }

    pub fn price(&self) -> PriceResult {
        price_deliveries(self.count, &self.sheet())
    }

    /// The call with something changed.
    pub fn with(&self, change: impl FnOnce(&mut PriceCall)) -> PriceCall {
        let mut call = self.clone();
        change(&mut call);
        call
    }

    /// A call that is not refused, of up to so many deliveries.
    pub fn proper(random: &mut Random, most: u32) -> PriceCall {
        let bands = some_bands(random, most);
        let count = some_count(random, most, &bands);
        PriceCall {
            count,
            bands,
            torn: Vec::new(),
        }
    }

    /// A proper call, and in at most two cases of three one or two things wrong with it.
    pub fn hostile(random: &mut Random, most: u32) -> PriceCall {
        let mut call = PriceCall::proper(random, most);
        for _ in 0..random.below(3) {
            call.spoil(random.pick(&WRONGS), random);
        }
        call
    }

    fn spoil(&mut self, wrong: Wrong, random: &mut Random) {
        match wrong {
            Wrong::Count => {
                let over = MOST_DELIVERIES + 1;
                self.count = random.pick(&[over, over, over + 1, 1 << 31, u32::MAX]);
            }
            Wrong::Torn => {
                let bytes = random.next().to_le_bytes();
                self.torn = bytes[..1 + below(random, BAND_BYTES - 1)].to_vec();
            }
            Wrong::NoBands => self.bands.clear(),
            Wrong::TooManyBands => {
                let bands = random.pick(&[9, 9, 9, 10, 16]);
                self.lengthen(bands);
            }
            Wrong::EqualEnds => self.after_another(random, |before| before),
            Wrong::FallingEnds => {
                let by = random.pick(&[1, 1, 2, u32::MAX]);
                self.after_another(random, |before| before.saturating_sub(by));
            }
            Wrong::Price => {
                let over = HIGHEST_PRICE + 1;
                let price = random.pick(&[over, over, over + 1, 1 << 31, u32::MAX]);
                self.any_band(random, |band| band.price = price);
            }
            Wrong::Noise => {
                let (end, price) = (random.next() as u32, random.next() as u32);
                self.any_band(random, |band| *band = Band { end, price });
            }
        }
    }

    /// Adds bands until there are so many. Their ends go on from the last one.
    pub fn lengthen(&mut self, bands: usize) {
        while self.bands.len() < bands {
            let end = self.bands.last().map_or(1, |last| last.end.wrapping_add(1));
            self.bands.push(Band { end, price: 1 });
        }
    }

    /// Gives a band another end, made of that of the band before, if there are two.
    fn after_another(&mut self, random: &mut Random, end: impl FnOnce(u32) -> u32) {
        let at = 1 + below(random, self.bands.len().saturating_sub(1));
        if at < self.bands.len() {
            self.bands[at].end = end(self.bands[at - 1].end);
        }
    }

    /// Changes a band, if there is one.
    fn any_band(&mut self, random: &mut Random, change: impl FnOnce(&mut Band)) {
        let at = below(random, self.bands.len());
        if let Some(band) = self.bands.get_mut(at) {
            change(band);
        }
    }
}

/// Bands with strictly rising ends, near each other, or so far apart that the last deliveries or all fall
/// in the first ones.
fn some_bands(random: &mut Random, most: u32) -> Vec<Band> {
    let count = match random.below(4) {
        0 => 1,
        1 => MOST_BANDS,
        _ => 1 + below(random, MOST_BANDS),
    };
    let gap = random.pick(&[1, 2, 1 + most / 8, 1 + most / 2, u32::MAX / 8]);
    let mut ends = vec![match random.chance(1, 4) {
        true => 0,
        false => 1 + random.below(gap),
    }];
    while ends.len() < count {
        ends.push(ends[ends.len() - 1] + 1 + random.below(gap));
    }
    if random.chance(1, 8) {
        ends[count - 1] = u32::MAX;
    }
    let band = |end| Band {
        end,
        price: some_price(random),
    };
    ends.into_iter().map(band).collect()
}

/// In half of the cases at an edge.
fn some_price(random: &mut Random) -> u32 {
    match random.chance(1, 2) {
        true => random.pick(&[0, 1, 99, 100, 101, HIGHEST_PRICE - 1, HIGHEST_PRICE]),
        false => random.below(HIGHEST_PRICE + 1),
    }
}

/// Mostly the first or the last counts, or at a band's end or one past it.
fn some_count(random: &mut Random, most: u32, bands: &[Band]) -> u32 {
    let end = random.pick(bands).end;
    let count = match random.below(10) {
        0 => 0,
        1 => 1,
        2 => most.saturating_sub(1),
        3 => most,
        4..=6 => end,
        7 | 8 => end.saturating_add(1),
        _ => random.below(most.saturating_add(1)),
    };
    count.min(most)
}
