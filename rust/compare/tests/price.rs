//! Prices: sheets worked by hand, every count, each number at its edge and in its order, sheets of every
//! length and at any address, and random ones. A call reads the sheet alone and changes nothing of it.

use crate::pages::{Fenced, Side};
use compare::calls::price;
use compare::price::Bills;
use reference::price::Band;
use reference::price_calls::PriceCall;
use reference::price_sheets::{billed, faultless, refused, FAULTS};
use reference::random::Random;

fn number(call: &PriceCall) -> u32 {
    price(call.count, &call.sheet()).refusal
}

/// Eight bands, each of so many deliveries but for the last, at prices that differ.
fn eight(each: u32) -> PriceCall {
    let bands: Vec<(u32, u32)> = (1..9).map(|at| (each * at, 110_003 * at)).collect();
    PriceCall::new(4000, &bands)
}

#[test]
fn sheets_worked_by_hand() {
    for sheet in [billed(), refused()].concat() {
        let found = price(sheet.call.count, &sheet.call.sheet());
        assert_eq!(found, sheet.result, "{}", sheet.about);
    }
}

#[test]
fn every_count() {
    let of_few: Vec<PriceCall> = [
        &[(1, 1_000_000)][..],
        &[(0, 5), (10, 250), (20, 199), (30, 101)],
        &[(3998, 7), (3999, 70), (4000, 700), (4001, 7000), (4002, 9)],
        &[(2000, 1_000_000), (u32::MAX - 1, 999_999), (u32::MAX, 1)],
    ]
    .map(|bands| PriceCall::new(0, bands))
    .into();
    for call in [of_few, vec![eight(1), eight(500)]].concat() {
        for count in 0..=4005 {
            let found = number(&call.with(|call| call.count = count));
            assert_eq!(found, if count > 4000 { 2 } else { 0 }, "{count}");
        }
    }
}

/// Any faults together: the one whose test comes first gives the number.
#[test]
fn numbers_in_their_order() {
    for chosen in 0..1 << FAULTS.len() {
        let mut call = faultless();
        let mut first = None;
        for (at, (number, _, make)) in FAULTS.into_iter().enumerate() {
            if chosen & 1 << at != 0 {
                make(&mut call);
                first = first.or(Some(number));
            }
        }
        assert_eq!(number(&call), first.unwrap_or(0), "{call:?}");
    }
}

#[test]
fn counts_and_prices_past_their_edges() {
    for count in [4001, 4096, 65_536, 1 << 31, u32::MAX] {
        assert_eq!(number(&eight(3).with(|call| call.count = count)), 2);
    }
    for at in 0..8 {
        for (price, expected) in [
            (999_999, 0),
            (1_000_000, 0),
            (1_000_001, 16),
            (1 << 24, 16),
            (1 << 31, 16),
            (u32::MAX, 16),
        ] {
            let call = eight(3).with(|call| call.bands[at].price = price);
            assert_eq!(number(&call), expected, "{price} in {at}");
        }
    }
}

/// Each two neighbours of eight, one apart, equal and falling; with a price too high in each band too.
#[test]
fn every_pair_of_ends() {
    for (at, by) in (1..8).flat_map(|at| [1, 0, -1, -5, i32::MAX].map(|by| (at, by))) {
        let mut call = eight(10);
        call.bands[at].end = call.bands[at - 1].end.saturating_add_signed(by);
        let rises = call.bands.windows(2).all(|two| two[0].end < two[1].end);
        assert_eq!(number(&call), if rises { 0 } else { 15 }, "{at}, {by}");
        for high in 0..8 {
            let call = call.with(|call| call.bands[high].price = 1_000_001);
            let expected = if rises { 16 } else { 15 };
            assert_eq!(number(&call), expected, "{at}, {by}, {high}");
        }
    }
}

#[test]
fn each_bit_changed() {
    let mut met = [0; 17];
    for call in [eight(500), eight(1), faultless()] {
        let mut sheet = call.sheet();
        for bit in 0..8 * sheet.len() {
            sheet[bit / 8] ^= 1 << (bit % 8);
            for count in [call.count, 0, 1, 5] {
                met[price(count, &sheet).refusal as usize] += 1;
            }
            sheet[bit / 8] ^= 1 << (bit % 8);
        }
    }
    let numbers: Vec<usize> = (0..17).filter(|&number| met[number] > 0).collect();
    assert_eq!(numbers, [0, 15, 16], "{met:?}");
}

/// The start of a sheet of ten bands.
#[test]
fn every_length() {
    let mut call = faultless();
    call.lengthen(10);
    for length in 0..=80 {
        let expected = match length / 8 {
            _ if length % 8 != 0 => 4,
            1..=8 => 0,
            _ => 15,
        };
        for count in [0, 5, 4000] {
            let found = price(count, &call.sheet()[..length]).refusal;
            assert_eq!(found, expected, "{length} bytes");
        }
    }
}

/// So many that their number, or that of their bytes, is small in its low bits alone.
#[test]
fn many_bands() {
    for bands in [9, 16, 17, 255, 256, 257, 264, 8192, 8193, 65_536, 65_537] {
        let mut call = PriceCall::new(1, &[(1, 1)]);
        call.lengthen(bands);
        assert_eq!(number(&call), 15, "{bands} bands");
        call.torn = vec![0; 3];
        assert_eq!(number(&call), 4, "{bands} bands");
    }
}

#[test]
fn sheets_at_any_address() {
    let sheet = eight(500).sheet();
    for offset in 0..16 {
        let moved = [&vec![7; offset], &sheet[..]].concat();
        assert_eq!(price(4000, &moved[offset..]), price(4000, &sheet));
    }
}

#[test]
fn beside_closed_pages() {
    let mut call = eight(500);
    call.lengthen(9);
    let nine = call.sheet();
    for side in [Side::Start, Side::End] {
        for length in 0..=nine.len() {
            for count in [0, 1, 4000, 4001] {
                let mut fenced = Fenced::new(&nine[..length], side);
                price(count, fenced.lent());
                assert_eq!(fenced.lent(), &nine[..length]);
            }
        }
    }
}

/// The bands of `rust/dictionary` have the bytes of the reference's.
#[test]
fn bands_have_the_same_bytes() {
    let mut random = Random::new(1);
    for _ in 0..1000 {
        let both = random.next();
        let (last, price) = (both as u32, (both >> 32) as u32);
        let found: [u8; 8] = dictionary::price::Band { last, price }.into();
        assert_eq!(found, Band { end: last, price }.bytes());
        let read = dictionary::price::Band::from(found);
        assert_eq!((read.last, read.price), (last, price));
    }
}

/// The refusals have the numbers that the reference gives.
#[test]
fn every_refusal() {
    let numbers = dictionary::price::Refusal::ALL.map(|refusal| refusal.number());
    let mut given: Vec<u32> = refused().iter().map(|x| x.result.refusal).collect();
    given.dedup();
    assert_eq!(numbers[..], given);
}

#[test]
fn random_and_hostile_calls() {
    let (mut bills, mut random) = (Bills::default(), Random::new(2));
    for _ in 0..1000 {
        bills.compare_hostile(&mut random);
    }
    for (what, times) in bills.met() {
        assert!(times > 100, "{what} x{times}");
    }
}

/// The upper two bytes of each number are 0, so that some of the sheets are proper.
#[test]
fn random_bytes() {
    let mut random = Random::new(3);
    let mut billed = 0;
    for _ in 0..20_000 {
        let length = random.pick(&[7, 8, 16, 24, 64, 72]);
        let most = random.pick(&[2, 5, 256]);
        let sheet: Vec<u8> = (0..length)
            .map(|at| match at % 4 {
                0 | 1 => random.below(most) as u8,
                _ => 0,
            })
            .collect();
        let priced = price(random.below(4100), &sheet);
        billed += u32::from(priced.refusal == 0);
    }
    assert!(billed > 1000, "{billed} bills");
}
