//! A script from standard input, the short ring that it leaves to standard output.

use compare::{draw, filter};
use std::process::ExitCode;

fn main() -> ExitCode {
    filter::run("log", draw::log)
}
