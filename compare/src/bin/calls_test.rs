//! Writes the files stdin and stdout of crates/test_calls.

use compare::calls_test;
use compare::plain::Slip;
use std::fs;
use std::path::Path;

fn main() -> std::io::Result<()> {
    let book = calls_test::all();
    println!("{}", book.tally);
    assert!(book.tally.is_full(), "an answer, a type or a timer is missing, or one came that can't");
    let unnoticed: Vec<Slip> = Slip::ALL.into_iter().filter(|&slip| !book.notices(slip)).collect();
    println!("wrong programs that give other lines: {} of {}", Slip::ALL.len() - unnoticed.len(), Slip::ALL.len());
    assert!(unnoticed.is_empty(), "not noticed: {unnoticed:?}");
    let folder = Path::new(env!("CARGO_MANIFEST_DIR")).join("../crates/test_calls");
    fs::write(folder.join("stdin"), &book.input)?;
    fs::write(folder.join("stdout"), &book.output)
}
