//! The printing program: step records on standard input, the run's print on standard output.

use reference::print::{print_run, RECORD_BYTES};
use std::io::{self, Read, Write};

fn main() -> io::Result<()> {
    let mut input = Vec::new();
    // One byte more than the buffer shows that the input is longer.
    let most = RECORD_BYTES as u64 + 1;
    io::stdin().lock().take(most).read_to_end(&mut input)?;
    io::stdout().write_all(print_run(&input).as_bytes())
}
