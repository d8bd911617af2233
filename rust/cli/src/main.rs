//! `otq`: plays step orders, lists the order, and checks a supplier's log. `otq --help` says more.

use std::process::ExitCode;

fn main() -> ExitCode {
    cli::main(std::env::args_os().skip(1).collect())
}
