//! `otq price`.

use crate::hostile_files::spoilt;
use crate::support::{assert_fails, file, otq, otq_on, written, SHEET};
use reference::random::Random;

/// The records of bands, each its last delivery and its price.
fn records(bands: &[[u32; 2]]) -> Vec<u8> {
    let numbers = bands.iter().flatten();
    numbers.flat_map(|number| number.to_le_bytes()).collect()
}

/// The bands of the example.
const BANDS: [[u32; 2]; 4] = [[100, 2500], [500, 1990], [2000, 1745], [3000, 1499]];

const BILL: &str = "\
deliveries      number  cents for 100      cents
1 to 100           100          2,500   2,500.00
101 to 500         400          1,990   7,960.00
501 to 2,000     1,500          1,745  26,175.00
2,001 to 2,345     345          1,499   5,171.55
total            2,345                 41,806.55
";

#[test]
fn text_and_records() {
    assert_eq!(written(&["price", "2345", SHEET]), BILL);
    let records = records(&BANDS);
    let sheet = file("sheet.bin", &records);
    assert_eq!(written(&["price", "2345", &sheet]), BILL);
    for input in [&records[..], &crate::support::content(SHEET)] {
        let said = otq_on(&["price", "2345", "-"], input);
        assert_eq!((said.status, said.out.as_str()), (0, BILL));
    }
    for count in ["0", "100", "101", "3001", "4000"] {
        for more in [&[][..], &["--json"]] {
            let of = |sheet| written(&[&["price", count, sheet], more].concat());
            assert_eq!(of(&sheet), of(SHEET), "{count}");
        }
    }
}

/// The bill of a text.
fn bill(name: &str, count: u32, text: &str) -> String {
    let sheet = file(&format!("price-{name}.txt"), text.as_bytes());
    written(&["price", &count.to_string(), &sheet])
}

#[test]
fn counts_at_the_edges() {
    let heading = "deliveries  number  cents for 100";
    for (count, told) in [
        (
            0,
            format!("{heading}  cents\ntotal            0                  0.00\n"),
        ),
        (
            1,
            format!(
                "{heading}  cents\n1                1          2,500  25.00\ntotal            1                 25.00\n"
            ),
        ),
        (
            101,
            format!(
                "{heading}     cents\n1 to 100       100          2,500  2,500.00\n\
                 101              1          1,990     19.90\ntotal          101                 2,519.90\n"
            ),
        ),
    ] {
        assert_eq!(written(&["price", &count.to_string(), SHEET]), told);
    }
    let most = written(&["price", "4000", SHEET]);
    let end = "2,001 to 4,000   2,000          1,499  29,980.00\n\
               total            4,000                 66,615.00\n";
    assert!(most.ends_with(end), "{most}");
    let dearest = bill("dearest", 4000, "up to 4294967295: 1000000\n");
    let end = "1 to 4,000   4,000      1,000,000  40,000,000.00\n\
               total        4,000                 40,000,000.00\n";
    assert!(dearest.ends_with(end), "{dearest}");
    assert_eq!(
        written(&["price", "00101", SHEET]),
        written(&["price", "101", SHEET])
    );
}

/// A first band that ends at 0 is empty; the end of the last changes nothing.
#[test]
fn ends_at_the_edges() {
    let two = bill("empty", 3, "up to 0: 1000000\nup to 2: 150\n");
    let told = "1 to 3           3            150   4.50\n";
    assert!(two.contains(told), "{two}");
    assert_eq!(two.lines().count(), 3);
    for end in [1, 3, 4, 5000, u32::MAX] {
        let other = bill(
            &format!("end-{end}"),
            3,
            &format!("up to 0: 7\nup to {end}: 150\n"),
        );
        assert_eq!(other, two);
    }
    let free = bill("free", 7, "up to 5: 0\nup to 6: 0\n");
    let told =
        "1 to 5           5              0   0.00\n6 to 7           2              0   0.00\n";
    assert!(free.contains(told), "{free}");
}

/// Every way to write a line.
#[test]
fn forms_of_a_text() {
    let plain = bill("plain", 250, "up to 100: 2500\nup to 200: 1999\n");
    assert!(plain.ends_with("total          250                 5,498.50\n"));
    for (index, text) in [
        "\u{feff}up to 100: 2500\r\n\r\nup to 200: 1999",
        "# \u{20ac}, and no price: 5\n\tup  to 0100:2500# cheap\nup to 200 : 01999\n\n",
    ]
    .into_iter()
    .enumerate()
    {
        assert_eq!(bill(&format!("form-{index}"), 250, text), plain);
    }
}

#[test]
fn mistakes_in_a_text() {
    let form = "expected `up to DELIVERY: CENTS`";
    let delivery = "expected a delivery from 0 to 4294967295";
    let cents = "expected whole cents for a hundred, in digits, from 0 to 4294967295";
    for (index, (line, told)) in [
        ("100: 2500", format!("{form}, found `100: 2500`")),
        ("up to 100", format!("{form}, found `up to 100`")),
        ("up to 100 2500", format!("{form}, found `up to 100 2500`")),
        ("up to: 2500", format!("{form}, found `up to: 2500`")),
        ("up to 100:", format!("{form}, found `up to 100:`")),
        ("Up to 1: 2", format!("{form}, found `Up to 1: 2`")),
        ("up to 1: 2 3", format!("{form}, found `up to 1: 2 3`")),
        ("up to 1: 2: 3", format!("{form}, found `up to 1: 2: 3`")),
        ("put 7 by 0", format!("{form}, found `put 7 by 0`")),
        ("up to x: 2500", format!("{delivery}, found `x`")),
        ("up to -1: 2500", format!("{delivery}, found `-1`")),
        (
            "up to 4294967296: 1",
            format!("{delivery}, found `4294967296`"),
        ),
        ("up to 1: +5", format!("{cents}, found `+5`")),
        ("up to 1: 2,500", format!("{cents}, found `2,500`")),
        ("up to 1: 25.00", format!("{cents}, found `25.00`")),
        (
            "up to 1: 4294967296",
            format!("{cents}, found `4294967296`"),
        ),
    ]
    .into_iter()
    .enumerate()
    {
        let text = format!("# a comment\nup to 1: 1\n{line}\nup to 2: 2\n");
        let sheet = file(&format!("price-wrong-{index}.txt"), text.as_bytes());
        assert_fails(&["price", "1", &sheet], 2, &format!("{sheet}:3: {told}\n"));
    }
}

const OF_COUNT: &str = "otq: refused with 2: the count of deliveries is over 4,000\n  ";
const OF_TORN: &str = "otq: refused with 4: the sheet bytes are not a multiple of 8\n  ";
const OF_BANDS: &str =
    "otq: refused with 15: the bands are not 1 to 8, or their ends do not rise strictly\n  ";
const OF_PRICE: &str = "otq: refused with 16: a price is over 1,000,000 cents for a hundred\n  ";

/// Texts that are refused: a name, the count, the text, and what is told: the refusal, the rest of it, and
/// the number that is explained.
const REFUSED: [[&str; 6]; 8] = [
    // Nothing is right here but that a text is whole bands.
    ["count", "4001", "up to 5: 1000001\nup to 5: 1\n", OF_COUNT, "the count is 4001\n", "2"],
    ["count-most", "4294967295", "", OF_COUNT, "the count is 4294967295\n", "2"],
    ["none", "0", "# nothing\n", OF_BANDS, "the sheet has no bands\n", "15"],
    [
        "nine",
        "0",
        "up to 1: 1\nup to 2: 1\nup to 3: 1\nup to 4: 1\nup to 5: 1\nup to 6: 1\nup to 7: 1\n\n\
         up to 8: 1\nup to 9: 1000001\n",
        OF_BANDS,
        "band 9, byte 64: up to 9: 1000001 (09 00 00 00 41 42 0f 00), FILE:10\n  the sheet has 9 bands\n",
        "15",
    ],
    [
        "equal",
        "0",
        "up to 1: 1000001\nup to 7: 1\nup to 7: 2\n",
        OF_BANDS,
        "band 3, byte 16: up to 7: 2 (07 00 00 00 02 00 00 00), FILE:3\n  \
         band 2 ends at delivery 7, and band 3 after it at delivery 7\n",
        "15",
    ],
    [
        "falling",
        "4000",
        "up to 500: 1990\nup to 100: 2500\nup to 600: 9\n",
        OF_BANDS,
        "band 2, byte 8: up to 100: 2500 (64 00 00 00 c4 09 00 00), FILE:2\n  \
         band 1 ends at delivery 500, and band 2 after it at delivery 100\n  \
         likely cause: with its bands in the order of their ends the sheet is taken\n",
        "15",
    ],
    [
        "falling-and-too-high",
        "4000",
        "up to 500: 1990\nup to 100: 1000001\n",
        OF_BANDS,
        "band 2, byte 8: up to 100: 1000001 (64 00 00 00 41 42 0f 00), FILE:2\n  \
         band 1 ends at delivery 500, and band 2 after it at delivery 100\n",
        "15",
    ],
    [
        "too-high",
        "0",
        "up to 1: 1000000\n# dear\nup to 2: 1000001\nup to 3: 4294967295\n",
        OF_PRICE,
        "band 2, byte 8: up to 2: 1000001 (02 00 00 00 41 42 0f 00), FILE:3\n  \
         its price is 1000001 cents for a hundred\n",
        "16",
    ],
];

#[test]
fn each_refusal_of_a_text() {
    for [name, count, text, refusal, told, number] in REFUSED {
        let sheet = file(&format!("price-refused-{name}.txt"), text.as_bytes());
        let told = told.replace("FILE", &sheet);
        let end = format!("  `otq explain {number}` says what to do\n");
        let said = otq(&["price", count, &sheet]);
        assert_eq!((said.status, said.out.as_str()), (3, ""), "{name}");
        assert_eq!(said.err, format!("{refusal}{told}{end}"), "{name}");
    }
}

/// What is told of records that are refused for a count of 0.
fn refused(records: &[u8]) -> String {
    let said = otq_on(&["price", "0", "-"], records);
    assert_eq!((said.status, said.out.as_str()), (3, ""), "{records:?}");
    said.err
}

#[test]
fn torn_sheets() {
    let sheet = records(&[[5, 1_000_001], [5, 1]]);
    for (length, told) in [
        (1, "0 whole bands, then 1 byte at byte 0"),
        (7, "0 whole bands, then 7 bytes at byte 0"),
        (9, "1 whole band, then 1 byte at byte 8"),
        (15, "1 whole band, then 7 bytes at byte 8"),
    ] {
        let end = "`otq explain 4` says what to do";
        let told = format!("{OF_TORN}likely cause: {told} of standard input\n  {end}\n");
        assert_eq!(refused(&sheet[..length]), told);
    }
    let said = otq_on(&["price", "4001", "-"], &sheet[..9]);
    assert!(said.err.starts_with(OF_COUNT), "{said:?}");
}

/// A text that has bytes that no text has, and so is read as records.
#[test]
fn spoilt_texts() {
    for text in [
        "up to 100: 2500\nup to 200: 1999\n",
        "# A price sheet\nup to 100: 2500\n",
    ] {
        for (spoilt, what) in spoilt(text) {
            let told = refused(&spoilt);
            assert!(
                told.contains(&format!("  likely cause: {what}\n")),
                "{told}"
            );
        }
    }
    let told = refused(&records(&[[1, 1], [1, 1]]));
    assert!(!told.contains("a text"), "{told}");
}

/// Records written in another way than they should be.
#[test]
fn causes_of_records() {
    let cause = |records: &[u8]| {
        let told = refused(records);
        let cause = told
            .lines()
            .find_map(|line| line.strip_prefix("  likely cause: "));
        cause.map(str::to_string)
    };
    let order = "with its bands in the order of their ends";
    let exchanged = "with the two numbers of each band exchanged";
    let high_first = "with numbers that have their high byte first";
    let taken = |with: &[&str]| Some(format!("{} the sheet is taken", with.join(", or ")));
    let sheet = |bands: [[u32; 2]; 2]| records(&bands);
    assert_eq!(
        cause(&sheet([[500, 1990], [100, 2500]])),
        taken(&[order, exchanged])
    );
    assert_eq!(
        cause(&sheet([[2500, 100], [2500, 500]])),
        taken(&[exchanged])
    );
    assert_eq!(cause(&sheet([[500, 1_000_000], [100, 3]])), taken(&[order]));
    let swapped = [[100, 2500], [500, 1990]].map(|band| band.map(u32::swap_bytes));
    assert_eq!(cause(&sheet(swapped)), taken(&[high_first]));
    assert_eq!(cause(&sheet([[7, 9], [7, 9]])), None);
    let told = refused(&records(&[[1, 1]; 9]));
    let nine = "band 9, byte 64: up to 1: 1 (01 00 00 00 01 00 00 00), standard input\n  the sheet has 9 bands\n";
    assert!(told.starts_with(&format!("{OF_BANDS}{nine}")), "{told}");
}

#[test]
fn json() {
    let told = written(&["price", "101", SHEET, "--json"]);
    let expected = r#"{"refusal": null, "count": 101, "bands": [{"first": 1, "last": 100, "number": 100, "price": 2500, "cents": 2500, "remainder": 0}, {"first": 101, "last": 101, "number": 1, "price": 1990, "cents": 19, "remainder": 90}], "cents": 2519, "remainder": 90}"#;
    assert_eq!(told, format!("{expected}\n"));
    let none = written(&["price", "0", SHEET, "--json"]);
    let expected = r#"{"refusal": null, "count": 0, "bands": [], "cents": 0, "remainder": 0}"#;
    assert_eq!(none, format!("{expected}\n"));
    let sheet = file("price-json.txt", b"\nup to 5: 1000001\n");
    let refused = otq(&["price", "9", &sheet, "--json"]);
    let expected = r#"{"refusal": {"number": 16, "name": "PriceTooHigh", "meaning": "a price is over 1,000,000 cents for a hundred", "record": 1, "byte": 0, "line": 2, "words": "up to 5: 1000001", "standing": "its price is 1000001 cents for a hundred", "likely_cause": null}, "count": 9, "bands": [], "cents": 0, "remainder": 0}"#;
    assert_eq!((refused.status, refused.out), (3, format!("{expected}\n")));
    assert!(refused.err.starts_with(OF_PRICE));
}

/// A sheet of 1 to 8 bands that is taken.
fn random_bands(random: &mut Random) -> Vec<[u32; 2]> {
    let below = |random: &mut Random, most: u64| (random.next() % most) as u32;
    let (bands, prices) = (
        1 + below(random, 8),
        [7, 2000, 1_000_001][below(random, 3) as usize],
    );
    let mut end = below(random, 3);
    let sheet = (0..bands).map(|_| {
        let band = [end, below(random, prices)];
        end += 1 + below(random, 900);
        band
    });
    sheet.collect()
}

/// The numbers of a line of a bill; amounts are in hundredths of a cent.
fn numbers(line: &str) -> Vec<u64> {
    let digits = line.replace(['.', ','], "");
    digits
        .split_whitespace()
        .filter_map(|word| word.parse().ok())
        .collect()
}

/// The lines of a bill follow each other, add up to the total, and each is its number times its price.
/// The total is the sum of each delivery's price.
#[test]
fn bills_add_up() {
    let mut random = Random::new(8);
    for _ in 0..300 {
        let bands = random_bands(&mut random);
        let count = (random.next() % 4001) as u32;
        let said = otq_on(&["price", &count.to_string(), "-"], &records(&bands));
        assert_eq!((said.status, said.err.as_str()), (0, ""), "{bands:?}");
        let lines: Vec<&str> = said.out.lines().collect();
        let [_, of_bands @ .., total] = &lines[..] else {
            panic!("{said:?}");
        };
        let (mut before, mut sum) = (0, 0);
        for line in of_bands {
            let (first, last, rest) = match numbers(line)[..] {
                [first, last, ref rest @ ..] if line.contains(" to ") => {
                    (first, last, rest.to_vec())
                }
                [first, ref rest @ ..] => (first, first, rest.to_vec()),
                [] => panic!("{line}"),
            };
            let [number, price, amount] = rest[..] else {
                panic!("{line}");
            };
            assert_eq!((first, number), (before + 1, last - before), "{line}");
            assert_eq!(number * price, amount, "{line}");
            (before, sum) = (last, sum + amount);
        }
        assert_eq!(before, u64::from(count), "{bands:?}");
        assert_eq!(numbers(total), [u64::from(count), sum], "{bands:?}");
        let prices = (1..=count).map(|delivery| u64::from(price_of(&bands, delivery)));
        assert_eq!(sum, prices.sum(), "{bands:?}");
    }
}

/// The price of a delivery: of the first band that does not end before it, or else of the last.
fn price_of(bands: &[[u32; 2]], delivery: u32) -> u32 {
    let band = bands.iter().find(|[last, _]| delivery <= *last);
    let [_, price] = band.or(bands.last()).expect("a band");
    *price
}
