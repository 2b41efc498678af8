//! The drawing program for logs: a short ring from standard input, an SVG of it to standard output.

use compare::{draw, filter};
use std::process::ExitCode;

fn main() -> ExitCode {
    filter::run("show", draw::show)
}
