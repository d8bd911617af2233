//! p and L within their limits, at them and past them.

use compare::calls::Input;
use otq::table_words;

const NUMBERS: [u32; 10] = [0, 1, 2, 3, 4, 8, 9, 500, 501, u32::MAX];

/// No record, a step of an idle process, a begin, an ill-formed record, and torn ones.
const LISTS: [&[u8]; 6] = [
    &[],
    &[0; 8],
    &[1, 1, 0, 0, 7, 0, 0, 0],
    &[255; 8],
    &[0; 7],
    &[255; 9],
];

#[test]
fn every_pair() {
    for p in NUMBERS {
        for l in NUMBERS {
            // 49 words are enough for the smallest tree alone.
            let needed = table_words(p, l).unwrap_or(49);
            for records in LISTS {
                Input { p, l, records }.forecast();
            }
            for words in [0, needed - 1, needed, needed + 1] {
                for records in LISTS {
                    compare(Input { p, l, records }, words);
                }
            }
        }
    }
}

fn compare(input: Input, words: usize) {
    for bytes in [0, 15, 16] {
        input.run(words, bytes);
        input.list_order(words, bytes);
    }
    for log in [&[][..], &[1; 15], &[1; 16], &[1; 17]] {
        input.check_log(words, log);
    }
}
