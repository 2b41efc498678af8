//! Writes the files stdin and stdout of crates/test_listener.

use compare::listener_test;
use compare::plain::listener::Slip;
use std::fs;
use std::path::Path;

fn main() -> std::io::Result<()> {
    let book = listener_test::all();
    println!("calls, by number and answer: {:?}, {} notices", book.calls, book.notices);
    assert!(book.is_full(), "an answer is missing, or one came that can't");
    // A node number of the crates is a byte.
    let slips = Slip::ALL.into_iter().filter(|&slip| slip != Slip::Modulo256);
    let (noticed, unnoticed): (Vec<Slip>, Vec<Slip>) = slips.partition(|&slip| book.differs(slip));
    println!("wrong listeners that give other lines: {} of {}", noticed.len(), noticed.len() + unnoticed.len());
    assert!(unnoticed.is_empty(), "not noticed: {unnoticed:?}");
    let folder = Path::new(env!("CARGO_MANIFEST_DIR")).join("../crates/test_listener");
    fs::write(folder.join("stdin"), &book.input)?;
    fs::write(folder.join("stdout"), &book.output)
}
