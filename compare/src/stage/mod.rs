//! What a stage can bear, measured in simulated time.

mod listening;
mod load;
mod rounds;
mod settling;
mod simulated;
mod starts;
mod uneven;

use crate::ring::Ring;
use std::sync::atomic::{AtomicUsize, Ordering};
use std::thread;

/// The numbers of nodes.
pub const SIZES: [usize; 4] = [8, 16, 32, 64];

/// A and B, which are equal.
const LEAVES: [u32; 4] = [1, 2, 4, 8];

pub struct Plan {
    pub seed: u64,
    /// How often each case is run.
    pub seeds: usize,
    /// The nodes of the largest stage.
    pub nodes: usize,
    pub threads: u64,
}

impl Plan {
    fn sizes(&self) -> impl Iterator<Item = usize> + '_ {
        SIZES.into_iter().filter(|&n| n <= self.nodes)
    }
}

/// Every table.
pub fn report(ring: &dyn Ring, plan: &Plan) {
    println!("\nOn stage, {}", ring.name());
    rounds::report(ring, plan);
    rounds::report_contacted(ring, plan);
    rounds::report_together(ring, plan);
    uneven::report(ring, plan);
    uneven::report_joined(ring, plan);
    load::report(ring, plan);
    load::report_senders(ring, plan);
    load::report_clocks(ring, plan);
    listening::report(ring, plan);
    listening::report_played(ring, plan);
}

/// What `run` gives for each number below the count, in their order.
fn in_threads<T: Send>(threads: u64, count: usize, run: impl Fn(usize) -> T + Sync) -> Vec<T> {
    let next = AtomicUsize::new(0);
    let work = || -> Vec<(usize, T)> {
        let numbers = std::iter::repeat_with(|| next.fetch_add(1, Ordering::Relaxed));
        numbers.take_while(|&number| number < count).map(|number| (number, run(number))).collect()
    };
    let mut results: Vec<(usize, T)> = thread::scope(|scope| {
        let threads: Vec<_> = (0..threads).map(|_| scope.spawn(&work)).collect();
        threads.into_iter().flat_map(|thread| thread.join().unwrap()).collect()
    });
    results.sort_by_key(|&(number, _)| number);
    results.into_iter().map(|(_, result)| result).collect()
}
