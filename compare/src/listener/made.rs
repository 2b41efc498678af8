//! Random lists of calls through every implementation, and what came of them.

use super::lists::Script;
use super::{Call, Case, Listener, Record, Reply};
use crate::random::Random;
use std::sync::atomic::{AtomicBool, Ordering};
use std::{fmt, thread};

#[derive(Clone, Copy, Default)]
pub struct Tally {
    /// By answer: 0, 7, 18.
    watchings: [u64; 3],
    hearings: [u64; 3],
    ticks: u64,
    notices: u64,
    /// Hearings that left a window of 255 where it was 254.
    full_windows: u64,
    full_from_empty: u64,
    from_empty: u64,
    by_hand: u64,
}

impl Tally {
    fn calls(&self) -> u64 {
        self.ticks + self.watchings.iter().chain(&self.hearings).sum::<u64>()
    }

    fn add(&mut self, other: &Tally) {
        self.watchings.iter_mut().zip(other.watchings).for_each(|(sum, count)| *sum += count);
        self.hearings.iter_mut().zip(other.hearings).for_each(|(sum, count)| *sum += count);
        self.ticks += other.ticks;
        self.notices += other.notices;
        self.full_windows += other.full_windows;
        self.full_from_empty += other.full_from_empty;
        self.from_empty += other.from_empty;
        self.by_hand += other.by_hand;
    }

    fn note(&mut self, call: Call, reply: Reply, before: &Record, after: &Record) {
        let place = [0, 7].iter().position(|&answer| reply.answer == answer).unwrap_or(2);
        match call {
            Call::Watch(_) => self.watchings[place] += 1,
            Call::Hear(_) => self.hearings[place] += 1,
            Call::Tick => self.ticks += 1,
        }
        self.notices += reply.notices.count_ones() as u64;
        if let (Call::Hear(s), 0) = (call, reply.answer) {
            let s = s as usize % 64;
            self.full_windows += (before.windows[s] == 254 && after.windows[s] == 255) as u64;
        }
    }
}

impl fmt::Display for Tally {
    fn fmt(&self, f: &mut fmt::Formatter) -> fmt::Result {
        let Tally { watchings, hearings, ticks, notices, full_windows, full_from_empty, from_empty, by_hand } = self;
        let calls = self.calls();
        writeln!(f, "{calls} calls, in {from_empty} lists from an empty record and {by_hand} from records by hand")?;
        writeln!(f, "  answers 0, 7, 18: watch {watchings:?}, hear {hearings:?}")?;
        writeln!(f, "  {ticks} ticks, {notices} notices")?;
        write!(f, "  {full_windows} windows grown to 255, {full_from_empty} from an empty record")
    }
}

/// What came of the calls, and a text for each list that has a fault.
#[derive(Default)]
pub struct Made {
    pub tally: Tally,
    pub found: Vec<String>,
}

impl Made {
    /// At least so many calls. The first fault of a thread ends all.
    pub fn run(seed: u64, count: u64, threads: u64, listeners: &[&dyn Listener]) -> Made {
        let (share, stop) = (count.div_ceil(threads), AtomicBool::new(false));
        let parts: Vec<Made> = thread::scope(|scope| {
            let start = |number| {
                let (random, stop) = (Random::new(seed, u64::MAX / 16 - number), &stop);
                scope.spawn(move || Made::run_thread(random, share, listeners, stop))
            };
            let threads: Vec<_> = (0..threads).map(start).collect();
            threads.into_iter().map(|thread| thread.join().unwrap()).collect()
        });
        let mut made = Made::default();
        for part in parts {
            made.tally.add(&part.tally);
            made.found.extend(part.found.into_iter().map(|found| format!("seed {seed}, {found}")));
        }
        made
    }

    fn run_thread(mut random: Random, count: u64, listeners: &[&dyn Listener], stop: &AtomicBool) -> Made {
        let mut made = Made::default();
        while made.tally.calls() < count && !stop.load(Ordering::Relaxed) {
            let drawn = Random::new(random.next(), 0);
            let (script, start) = match random.percent(70) {
                true => Script::by_hand(drawn),
                false => (Script::from_empty(drawn), Record::EMPTY),
            };
            let case = made.play(script, start, listeners);
            if let Some((length, _)) = case.fault(listeners) {
                stop.store(true, Ordering::Relaxed);
                made.found.push(shown(&case, length, listeners));
            }
        }
        made
    }

    /// The calls of a script, which the first implementation makes meanwhile.
    fn play(&mut self, mut script: Script, start: Record, listeners: &[&dyn Listener]) -> Case {
        let mut case = Case { start, calls: Vec::new() };
        let full = self.tally.full_windows;
        let (mut record, mut last) = (start, Reply::default());
        while case.calls.len() < script.length {
            let call = script.next(case.calls.len(), last);
            case.calls.push(call);
            let before = record;
            last = call.make(listeners[0], &mut record);
            self.tally.note(call, last, &before, &record);
        }
        if start == Record::EMPTY {
            self.tally.from_empty += 1;
            self.tally.full_from_empty += self.tally.full_windows - full;
        } else {
            self.tally.by_hand += 1;
        }
        case
    }
}

fn shown(case: &Case, length: usize, listeners: &[&dyn Listener]) -> String {
    let short = case.shortened(listeners);
    let (_, fault) = short.fault(listeners).unwrap_or_default();
    format!("after {length} calls, shortened to {}\n{fault}\n{short}", short.calls.len())
}
