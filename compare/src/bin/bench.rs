//! The bench program of document 01: bytes from standard input, lines to standard output.

use compare::{bench, filter};
use std::process::ExitCode;

fn main() -> ExitCode {
    filter::run("bench", bench::run)
}
