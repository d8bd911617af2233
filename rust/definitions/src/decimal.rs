//! Lists of bytes and words as text that is short for the prover.

/// A run of equal words from this length on is written by its length.
const LONG: usize = 64;

/// Pieces joined by `++`: `words_of length number`, where `number` is the piece read in base 2^32,
/// low word first, and `replicate length word` for a long run of one word.
pub fn words(list: &[u32]) -> String {
    let mut pieces = Vec::new();
    let mut others: Vec<u32> = Vec::new();
    for run in list.chunk_by(|a, b| a == b) {
        if run.len() < LONG {
            others.extend(run);
            continue;
        }
        if !others.is_empty() {
            pieces.push(piece(std::mem::take(&mut others)));
        }
        pieces.push(format!("replicate {} {}", run.len(), run[0]));
    }
    if !others.is_empty() || pieces.is_empty() {
        pieces.push(piece(others));
    }
    format!("({})", pieces.join(" ++ "))
}

fn piece(words: Vec<u32>) -> String {
    format!("words_of {} {}", words.len(), decimal(words))
}

/// `(bytes_of length number)`, where `number` is the list read in base 2^8, low byte first.
pub fn bytes(list: &[u8]) -> String {
    let words = list.chunks(4).map(|chunk| {
        chunk
            .iter()
            .rev()
            .fold(0, |word, &byte| word << 8 | u32::from(byte))
    });
    format!("(bytes_of {} {})", list.len(), decimal(words.collect()))
}

/// The number whose digits in base 2^32 are given, low digit first.
fn decimal(mut number: Vec<u32>) -> String {
    const CHUNK: u64 = 1_000_000_000;
    let mut chunks = Vec::new();
    while number.iter().any(|&digit| digit != 0) {
        let mut rest = 0;
        for digit in number.iter_mut().rev() {
            let value = rest << 32 | u64::from(*digit);
            *digit = (value / CHUNK) as u32;
            rest = value % CHUNK;
        }
        chunks.push(rest);
    }
    let Some(highest) = chunks.pop() else {
        return "0".to_string();
    };
    chunks
        .iter()
        .rev()
        .fold(highest.to_string(), |text, chunk| {
            format!("{text}{chunk:09}")
        })
}
