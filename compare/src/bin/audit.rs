//! A script on standard input, its account on standard output, by the plain implementation.

use compare::plain::Plain;
use std::io::{Read, Write};

fn main() -> std::io::Result<()> {
    let mut script = Vec::new();
    std::io::stdin().read_to_end(&mut script)?;
    std::io::stdout().write_all(compare::audit::run(&Plain { slip: None }, &script).as_bytes())
}
