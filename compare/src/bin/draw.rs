//! The drawing program: a script from standard input, an SVG of the ring that it leaves to standard output.

use compare::{draw, filter};
use std::process::ExitCode;

fn main() -> ExitCode {
    filter::run("draw", draw::run)
}
