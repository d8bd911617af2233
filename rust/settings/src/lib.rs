//! p, the number of processes, and l, the most operations of one process: which are taken, and the
//! work table that they need. The libraries for Rust callers share it; it links no archive.

/// Words of a block of the work table.
pub const BLOCK_WORDS: usize = 7;

/// The most operations of all processes together; `None` if p or l is turned down.
///
/// ```
/// assert_eq!(settings::operations(8, 500), Some(4000));
/// assert_eq!(settings::operations(6, 500), None);
/// assert_eq!(settings::operations(8, 0), None);
/// ```
pub fn operations(p: u32, l: u32) -> Option<usize> {
    let proper = matches!(p, 2 | 4 | 8) && (1..=500).contains(&l);
    proper.then(|| (p * l) as usize)
}

/// Words that the work table must have; `None` if p or l is turned down.
///
/// ```
/// use settings::table_words;
/// assert_eq!(table_words(4, 24), Some(2065));
/// assert_eq!(table_words(3, 24), None);
/// assert_eq!(table_words(4, u32::MAX), None);
/// ```
pub fn table_words(p: u32, l: u32) -> Option<usize> {
    let operations = operations(p, l)?;
    let levels = p.ilog2() as usize + 1;
    let nodes = 2 * p as usize - 1;
    Some(BLOCK_WORDS * (levels * operations + nodes))
}
