//! Stored bench scripts: each `NAME.bin` of a folder has to give `NAME.out`, byte for byte.

use crate::bench;
use crate::ring::Ring;
use std::fs;
use std::path::Path;

/// The number of scripts, and the names of those that an implementation got wrong.
pub fn run(ring: &dyn Ring, folder: &Path) -> std::io::Result<(usize, Vec<String>)> {
    let mut count = 0;
    let mut wrong = Vec::new();
    for entry in fs::read_dir(folder)? {
        let script = entry?.path();
        if script.extension().is_some_and(|extension| extension == "bin") {
            count += 1;
            if bench::run(ring, &fs::read(&script)?).as_bytes() != fs::read(script.with_extension("out"))? {
                wrong.push(script.display().to_string());
            }
        }
    }
    Ok((count, wrong))
}
