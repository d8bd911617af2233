//! The constants for a viewer in the header for C and C++: the example that reads blocks by them, compiled
//! and run, a program that reads them in two files, one that does not read them, and one that would write
//! them, which does not compile. `rust/compare` has the rest of the header's tests.

use c_programs::{repository, Programs};
use std::fs;
use std::path::PathBuf;

fn programs(libraries: &'static [&'static str]) -> Programs {
    Programs {
        folder: PathBuf::from(env!("CARGO_TARGET_TMPDIR")),
        libraries,
    }
}

#[test]
fn the_viewer() {
    let examples = repository().join("examples/c");
    let text = |name| fs::read_to_string(examples.join(name)).expect(name);
    let (source, expected) = (text("viewer.c"), text("viewer.expected"));
    programs(&["queue"]).assert_writes("viewer.c", &source, &expected);
}

/// A program without a viewer, of a user whose compiler is to tell every constant that is not used.
const CALLER: &str = "#pragma GCC diagnostic error \"-Wunused-const-variable\"
#include \"otq.h\"
int main(void)
{
    return 0;
}
";

#[test]
fn programs_without_a_viewer() {
    programs(&[]).assert_writes("without_a_viewer.c", CALLER, "");
}

/// The first word of leaf 1 with p = 4, from both files of a program.
const READS: &str = "#include \"otq.h\"
#include <inttypes.h>
#include <stdio.h>
uint32_t other_word(void);
int main(void)
{
    const uint32_t (*rows)[15] = OTQ_NODE_STARTS;
    printf(\"%\" PRIu32 \" %\" PRIu32 \"\\n\", rows[1][4], other_word());
    return 0;
}
";
const READS_TOO: &str = "#include \"otq.h\"
uint32_t other_word(void);
uint32_t other_word(void)
{
    return OTQ_NODE_STARTS[1][4];
}
";

#[test]
fn two_files_in_one_program() {
    let files = [("reads.c", READS), ("reads_too.c", READS_TOO)];
    programs(&[]).assert_all_write(&files, "1540 1540\n");
}

/// A program that would change a constant.
const WRITES: &str = "#include \"otq.h\"
int main(void)
{
    OTQ_NODE_STARTS[0][0] = 1;
    return 0;
}
";

#[test]
fn programs_that_would_write() {
    let said = "assignment of read-only location 'OTQ_NODE_STARTS[0][0]'";
    programs(&[]).assert_turned_down("writes.c", WRITES, said);
}
