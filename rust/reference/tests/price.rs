//! The price of deliveries: sheets worked by hand, each number at its edge with zeros, the order of the
//! tests, another way to sum, and wrong rules, which the sheets tell.

use reference::price::{price_deliveries, Band, PriceResult, HIGHEST_PRICE};
use reference::price_calls::PriceCall;
use reference::price_cases::{by_band, BILL_CASES};
use reference::price_sheets::{billed, faultless, refused, PriceSheet, FAULTS};
use reference::random::Random;

fn zeros(refusal: u32) -> PriceResult {
    PriceResult {
        refusal,
        cents: 0,
        remainder: 0,
    }
}

fn all_sheets() -> Vec<PriceSheet> {
    [billed(), refused()].concat()
}

#[test]
fn sheets_worked_by_hand() {
    for sheet in all_sheets() {
        assert_eq!(sheet.call.price(), sheet.result, "{}", sheet.about);
    }
}

/// The end comes first, and of each number its low byte.
#[test]
fn bytes_of_a_sheet() {
    let sheet = [3, 0, 0, 0, 44, 1, 0, 0, 4, 0, 0, 0, 5, 0, 0, 0];
    // 3 × 300 + 5
    let priced = price_deliveries(4, &sheet);
    assert_eq!((priced.cents, priced.remainder), (9, 5));
    assert_eq!(PriceCall::new(4, &[(3, 300), (4, 5)]).sheet(), sheet);
    let fifth = [&sheet[..4], &[0, 0, 0, 1]].concat();
    assert_eq!(price_deliveries(4, &fifth), zeros(16));
}

#[test]
fn counts_up_to_4_000() {
    let one = PriceCall::new(0, &[(7, 3)]);
    for count in 0..=4000 {
        let priced = one.with(|call| call.count = count).price();
        assert_eq!(priced.refusal, 0);
        assert_eq!(100 * priced.cents + priced.remainder, 3 * count);
    }
    for count in [4001, 4002, 1 << 31, u32::MAX] {
        assert_eq!(one.with(|call| call.count = count).price(), zeros(2));
    }
}

/// A sheet of zeros: at each length the number, of a count that is accepted and of one that is not.
#[test]
fn every_length_of_a_sheet() {
    for length in 0..=80 {
        let expected = match length {
            8 => 0,
            _ if length % 8 != 0 => 4,
            // None, more than 8, or equal ends.
            _ => 15,
        };
        let sheet = vec![0; length];
        assert_eq!(price_deliveries(1, &sheet), zeros(expected), "{length}");
        assert_eq!(price_deliveries(4001, &sheet), zeros(2), "{length}");
    }
}

#[test]
fn eight_bands_at_most() {
    for bands in 1..=20 {
        let mut call = PriceCall::new(1, &[(1, 1)]);
        call.lengthen(bands);
        let expected = if bands > 8 { 15 } else { 0 };
        assert_eq!(call.price().refusal, expected, "{bands} bands");
    }
}

/// Each two neighbours of eight: one apart, equal, or the wrong way round.
#[test]
fn ends_rise_strictly() {
    for at in 1..8 {
        for (end, expected) in [(1, 0), (0, 15), (-1, 15), (-10, 15)] {
            let ends = (1..9).map(|band| (100 * band, 1)).collect::<Vec<_>>();
            let mut call = PriceCall::new(1, &ends);
            call.bands[at].end = call.bands[at - 1].end.saturating_add_signed(end);
            assert_eq!(call.price().refusal, expected, "{at}, {end}");
        }
    }
}

/// In each of eight bands, whether a delivery falls in it or none does.
#[test]
fn prices_up_to_1_000_000() {
    for at in 0..8 {
        for count in [0, 3, 4000] {
            for (price, expected) in [(1_000_000, 0), (1_000_001, 16), (u32::MAX, 16)] {
                let ends = (0..8).map(|band| (band, 1)).collect::<Vec<_>>();
                let mut call = PriceCall::new(count, &ends);
                call.bands[at].price = price;
                let found = call.price();
                assert_eq!(found.refusal, expected, "{at}, {count}, {price}");
                assert!(expected == 0 || found == zeros(16));
            }
        }
    }
}

/// Any faults together: the one whose test comes first gives the number.
#[test]
fn the_first_test_gives_the_number() {
    assert_eq!(faultless().price().refusal, 0);
    for chosen in 1..1 << FAULTS.len() {
        let is_chosen = |at: &usize| chosen & 1 << at != 0;
        let mut call = faultless();
        let mut numbers = Vec::new();
        for at in (0..FAULTS.len()).filter(is_chosen) {
            let (number, _, make) = FAULTS[at];
            make(&mut call);
            numbers.push(number);
        }
        assert_eq!(call.price(), zeros(numbers[0]), "{numbers:?}: {call:?}");
    }
}

/// Sums band by band, each as many times its price as deliveries fall in it.
#[test]
fn summed_by_bands() {
    let mut random = Random::new(1);
    for _ in 0..20_000 {
        let call = PriceCall::proper(&mut random, 4000);
        let priced = call.price();
        assert_eq!(priced.refusal, 0, "{call:?}");
        assert!(priced.remainder < 100, "{call:?}");
        let sum = 100 * u64::from(priced.cents) + u64::from(priced.remainder);
        let by_band: u64 = by_band(call.count, &call.bands).iter().sum();
        assert_eq!(sum, by_band, "{call:?}");
    }
}

#[test]
fn the_highest_bill() {
    let highest = PriceCall::new(4000, &[(1, HIGHEST_PRICE)]).price();
    assert_eq!((highest.cents, highest.remainder), (40_000_000, 0));
    let mut random = Random::new(2);
    for _ in 0..2000 {
        let priced = PriceCall::proper(&mut random, 4000).price();
        assert!(priced.cents <= highest.cents);
    }
}

/// The last end may be any that is above the one before.
#[test]
fn the_last_end_changes_no_price() {
    let mut random = Random::new(3);
    for _ in 0..2000 {
        let call = PriceCall::proper(&mut random, 4000);
        let last = call.bands.len() - 1;
        let least = last.checked_sub(1).map_or(0, |at| call.bands[at].end + 1);
        for end in [least, least.max(call.count), u32::MAX] {
            let other = call.with(|call| call.bands[last].end = end);
            assert_eq!(other.price(), call.price(), "{call:?}, {end}");
        }
    }
}

/// Each number and each case comes up, however many deliveries there may be.
#[test]
fn hostile_calls_meet_all() {
    for most in [40, 4000] {
        let mut random = Random::new(4);
        let (mut numbers, mut cases) = ([0; 17], [0; BILL_CASES.len()]);
        for _ in 0..5000 {
            let call = PriceCall::hostile(&mut random, most);
            let priced = call.price();
            numbers[priced.refusal as usize] += 1;
            if priced.refusal == 0 {
                for (times, case) in cases.iter_mut().zip(BILL_CASES) {
                    *times += u32::from(case.is_shown(&call, priced));
                }
            }
        }
        let met: Vec<usize> = (0..17).filter(|&number| numbers[number] > 100).collect();
        assert_eq!(met, [0, 2, 4, 15, 16], "{numbers:?}");
        for (case, times) in BILL_CASES.into_iter().zip(cases) {
            let can_be = case.name() != "all 4,000" || most == 4000;
            assert_eq!(times > 50, can_be, "{} x{times}", case.name());
        }
    }
}

/// Rules in which one can be wrong.
#[derive(Clone, Copy)]
struct Rules {
    most: u32,
    /// Whether an end may follow another.
    rises: fn(u32, u32) -> bool,
    /// Whether 16 is tested before 15.
    price_first: bool,
    price_of: fn(u32, &[Band]) -> u32,
    /// Whether each band's sum is cut to whole cents.
    rounded: bool,
}

const RIGHT: Rules = Rules {
    most: 4000,
    rises: |before, end| before < end,
    price_first: false,
    price_of: |delivery, bands| {
        let (last, others) = bands.split_last().expect("a band");
        let own = others.iter().find(|band| band.end >= delivery);
        own.unwrap_or(last).price
    },
    rounded: false,
};

const NEXT_AT_THE_END: Rules = Rules {
    price_of: |delivery, bands| {
        let own = bands.iter().find(|band| band.end > delivery);
        own.or(bands.last()).expect("a band").price
    },
    ..RIGHT
};

/// Deliveries past the last end cost nothing.
const LAST_END_USED: Rules = Rules {
    price_of: |delivery, bands| {
        let own = bands.iter().find(|band| band.end >= delivery);
        own.map_or(0, |band| band.price)
    },
    ..RIGHT
};

const ROUNDED: Rules = Rules {
    rounded: true,
    ..RIGHT
};

const PRICE_FIRST: Rules = Rules {
    price_first: true,
    ..RIGHT
};

const LAST_COUNT_REFUSED: Rules = Rules {
    most: 3999,
    ..RIGHT
};

const EQUAL_ENDS: Rules = Rules {
    rises: |before, end| before <= end,
    ..RIGHT
};

impl Rules {
    fn price(self, call: &PriceCall) -> PriceResult {
        match self.refusal(call) {
            0 => self.bill(call),
            refusal => zeros(refusal),
        }
    }

    fn refusal(self, call: &PriceCall) -> u32 {
        let bands = &call.bands;
        let mut neighbours = bands.windows(2);
        let rises = neighbours.all(|two| (self.rises)(two[0].end, two[1].end));
        let ill_banded = !(1..=8).contains(&bands.len()) || !rises;
        let too_high = bands.iter().any(|band| band.price > 1_000_000);
        let mut of_bands = [(ill_banded, 15), (too_high, 16)];
        if self.price_first {
            of_bands.reverse();
        }
        let of_call = [(call.count > self.most, 2), (!call.torn.is_empty(), 4)];
        let mut tests = of_call.into_iter().chain(of_bands);
        tests
            .find(|&(fails, _)| fails)
            .map_or(0, |(_, number)| number)
    }

    fn bill(self, call: &PriceCall) -> PriceResult {
        let (count, bands) = (call.count, &call.bands);
        let price = |delivery| u64::from((self.price_of)(delivery, bands));
        let sum: u64 = match self.rounded {
            false => (1..=count).map(price).sum(),
            true => by_band(count, bands)
                .iter()
                .map(|sum| sum - sum % 100)
                .sum(),
        };
        PriceResult {
            refusal: 0,
            cents: (sum / 100) as u32,
            remainder: (sum % 100) as u32,
        }
    }
}

/// What the sheets are about on which such rules give something else.
fn told_by(rules: Rules) -> Vec<&'static str> {
    let sheets = all_sheets().into_iter();
    let others = sheets.filter(|sheet| rules.price(&sheet.call) != sheet.result);
    others.map(|sheet| sheet.about).collect()
}

#[test]
fn wrong_rules_give_something_else() {
    assert_eq!(told_by(RIGHT), [""; 0]);
    for (rules, about) in [
        (NEXT_AT_THE_END, "up to the first end"),
        (LAST_END_USED, "one past the last end"),
        (ROUNDED, "a cent of two remainders"),
        (PRICE_FIRST, "equal ends after a price too high"),
        (PRICE_FIRST, "equal ends before a price too high"),
        (LAST_COUNT_REFUSED, "the highest bill"),
        (EQUAL_ENDS, "equal ends"),
        (EQUAL_ENDS, "the last two of eight ends are equal"),
    ] {
        let told = told_by(rules);
        assert!(told.contains(&about), "{about}: {told:?}");
    }
}
