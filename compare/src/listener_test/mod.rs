//! The cases of `crates/test_listener`: its commands, and the lines that document 02's note 13 demands of it.

mod book;
mod cases;
mod machine;

pub use book::Book;

/// Every case.
pub fn all() -> Book {
    let mut book = Book::new();
    cases::write(&mut book);
    book
}
