//! Implementations of document 01 side by side: the proved library, a reference tuned by hand, and a plain one.

pub mod agree;
pub mod alike;
pub mod audit;
pub mod bench;
pub mod calls_test;
pub mod case;
pub mod command;
pub mod damage;
pub mod draw;
pub mod edges;
pub mod events;
pub mod filter;
pub mod joins;
#[cfg(feature = "library")]
pub mod library;
pub mod listener;
pub mod listener_test;
pub mod look;
pub mod numbers;
pub mod plain;
pub mod previews;
pub mod random;
pub mod reaches;
pub mod reference;
pub mod ring;
pub mod routes;
pub mod screens;
pub mod script;
pub mod self_test;
pub mod senders;
pub mod shorten;
pub mod shorts;
pub mod speed;
#[cfg(feature = "library")]
pub mod stack;
pub mod stage;
pub mod text;
pub mod unbroken;
pub mod vectors;

use listener::Listener;
use ring::Ring;

/// "A ring fills 13,441 words of 32 bits."
pub const LENGTH: usize = 13_441;

/// Answers are from 0 to 17, but for those of listeners and short editions.
pub const ANSWERS: usize = 18;

/// The library, where it is linked, and the reference.
pub fn fast_rings() -> Vec<&'static dyn Ring> {
    vec![
        #[cfg(feature = "library")]
        &library::Library,
        &reference::Reference,
    ]
}

/// These and the plain implementation.
pub fn every_ring() -> Vec<&'static dyn Ring> {
    let mut rings = fast_rings();
    rings.push(&plain::Plain { slip: None });
    rings
}

/// The listeners: of the library, where it is linked, and of the reference.
pub fn fast_listeners() -> Vec<&'static dyn Listener> {
    vec![
        #[cfg(feature = "library")]
        &library::Library,
        &reference::Reference,
    ]
}

/// These and the plain one.
pub fn every_listener() -> Vec<&'static dyn Listener> {
    let mut listeners = fast_listeners();
    listeners.push(&plain::listener::Plain { slip: None });
    listeners
}
