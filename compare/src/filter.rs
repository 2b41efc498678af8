//! Programs from standard input to standard output, over the implementation that the first word names, or over the
//! reference.

use crate::every_ring;
use crate::ring::Ring;
use std::io::{Read, Write};
use std::process::ExitCode;

pub fn run<T: AsRef<[u8]>>(program: &str, output: fn(&dyn Ring, &[u8]) -> T) -> ExitCode {
    let name = std::env::args().nth(1).unwrap_or("reference".to_string());
    let Some(ring) = every_ring().into_iter().find(|ring| ring.name() == name) else {
        eprintln!("{program} [{}]", every_ring().iter().map(|ring| ring.name()).collect::<Vec<_>>().join(" | "));
        return ExitCode::from(2);
    };
    let mut input = Vec::new();
    let read = std::io::stdin().read_to_end(&mut input);
    let written = std::io::stdout().write_all(output(ring, &input).as_ref());
    if read.is_ok() && written.is_ok() {
        ExitCode::SUCCESS
    } else {
        ExitCode::FAILURE
    }
}
