//! The cases of `crates/test_calls`: its commands, and the lines that document 01 demands of it.

mod book;
mod damaged;
mod echoes;
mod event_word;
mod joins;
mod lists;
mod machine;
mod openings;
mod pool;
mod previews;
mod reaches;
mod refusals;
mod replays;
mod routes;
mod screens;
mod senders;
mod shorts;
mod steps;
mod tally;

pub use book::Book;

/// Every case.
pub fn all() -> Book {
    let mut book = Book::new();
    openings::write(&mut book);
    event_word::write_cases(&mut book);
    steps::write(&mut book);
    refusals::write(&mut book);
    pool::write(&mut book);
    echoes::write(&mut book);
    damaged::write(&mut book);
    replays::write(&mut book);
    lists::write(&mut book);
    routes::write(&mut book);
    previews::write(&mut book);
    screens::write(&mut book);
    joins::write(&mut book);
    reaches::write(&mut book);
    senders::write(&mut book);
    shorts::write(&mut book);
    book
}
