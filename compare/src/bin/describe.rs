//! A script on standard input, its text on standard output.

use std::io::{Read, Write};

fn main() -> std::io::Result<()> {
    let mut script = Vec::new();
    std::io::stdin().read_to_end(&mut script)?;
    std::io::stdout().write_all(compare::text::describe(&script).as_bytes())
}
