//! What the note claims of a list of calls from an empty record, from the list alone: no record is kept.

use super::{Call, Reply};

/// A node's hearings, the first watching counted: how many ticks came before each.
type Hearings = Vec<usize>;

/// The reply to each call.
pub fn replies(calls: &[Call]) -> Vec<Reply> {
    let mut heard: Vec<Hearings> = vec![Vec::new(); 64];
    let mut ticks = Vec::new();
    let mut replies = vec![Reply::default(); calls.len()];
    for (place, &call) in calls.iter().enumerate() {
        match call {
            Call::Tick => ticks.push(place),
            Call::Watch(node) | Call::Hear(node) if node > 63 => replies[place].answer = 7,
            Call::Watch(node) if heard[node as usize].is_empty() => heard[node as usize].push(ticks.len()),
            Call::Watch(_) => {}
            Call::Hear(node) if heard[node as usize].is_empty() => replies[place].answer = 18,
            Call::Hear(node) => heard[node as usize].push(ticks.len()),
        }
    }
    for (s, hearings) in heard.iter().enumerate() {
        for tick in noticed(hearings, ticks.len()) {
            replies[ticks[tick - 1]].notices |= 1 << s;
        }
    }
    replies
}

/// At which ticks a node is noticed, the first tick being 1, of so many in all. "A watched stand not heard for its full
/// window is noticed on exactly that tick, once per silence", and one with fewer ticks up to the next hearing or the
/// list's end is not. The window is 4, and one more for each hearing after a notice, at most 255.
fn noticed(hearings: &Hearings, ticks: usize) -> Vec<usize> {
    let mut noticed = Vec::new();
    for (place, &heard) in hearings.iter().enumerate() {
        let end = hearings.get(place + 1).copied().unwrap_or(ticks);
        let window = (4 + noticed.len()).min(255);
        if end - heard >= window {
            noticed.push(heard + window);
        }
    }
    noticed
}
