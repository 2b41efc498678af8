//! A text on standard input, its script on standard output; at a fault the number of its line on standard error.

use std::io::{Read, Write};
use std::process::ExitCode;

fn main() -> std::io::Result<ExitCode> {
    let mut text = Vec::new();
    std::io::stdin().read_to_end(&mut text)?;
    match compare::text::assemble(&text) {
        Ok(script) => std::io::stdout().write_all(&script).map(|()| ExitCode::SUCCESS),
        Err(line) => {
            eprintln!("line {line}");
            Ok(ExitCode::FAILURE)
        }
    }
}
