//! A case made shorter while it still has a fault.

use super::{Case, Listener, Record};
use std::time::{Duration, Instant};

/// A case is good enough after this time.
const PATIENCE: Duration = Duration::from_secs(20);

impl Case {
    /// Without calls after the fault, then without ever smaller parts, then without what nodes have in the record.
    pub fn shortened(&self, listeners: &[&dyn Listener]) -> Case {
        let start = Instant::now();
        let mut best = self.clone();
        let mut part = best.calls.len().max(1);
        loop {
            let before = best.calls.len();
            let mut end = before;
            while end > 0 && start.elapsed() < PATIENCE {
                let from = end.saturating_sub(part);
                let mut trial = best.clone();
                trial.calls.drain(from..end.min(best.calls.len()));
                best.take(trial, listeners);
                end = from;
            }
            if part == 1 && best.calls.len() == before {
                break;
            }
            part = part.div_ceil(2);
        }
        for s in 0..64 {
            let mut trial = best.clone();
            trial.start = without(trial.start, s);
            best.take(trial, listeners);
        }
        best
    }

    /// The trial up to its fault, where it has one.
    fn take(&mut self, mut trial: Case, listeners: &[&dyn Listener]) {
        if let Some((length, _)) = trial.fault(listeners) {
            trial.calls.truncate(length);
            *self = trial;
        }
    }
}

/// The record with nothing at a node.
fn without(mut record: Record, s: usize) -> Record {
    record.watched &= !(1 << s);
    record.silences[s] = 0;
    record.windows[s] = 0;
    record
}
