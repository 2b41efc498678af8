//! A case made shorter while it still shows a fault of the same sort. Deliveries and losses keep hold of their message,
//! not of its position: without the step that sent it they go, too.

use crate::case::{Case, Fault, Runner, Step};
use crate::look;
use crate::previews::Preview;
use crate::ring::Ring;
use std::time::{Duration, Instant};

/// A message by the step that sent it, and its place among that step's messages.
type Sent = (usize, usize);

#[derive(Clone, Copy)]
struct Traced {
    step: Step,
    /// The step's number in the whole case.
    number: usize,
    /// The message that it takes out or echoes, or would by a preview.
    takes: Option<Sent>,
}

/// A case is good enough after this time.
const PATIENCE: Duration = Duration::from_secs(60);

impl Case {
    /// The shorter case and its fault.
    pub fn shortened(&self, rings: &[&dyn Ring], sort: &Fault) -> (Case, Fault) {
        let start = Instant::now();
        let whole = |(number, &step)| Traced { step, number, takes: None };
        let whole: Vec<Traced> = self.steps.iter().enumerate().map(whole).collect();
        let (mut best, mut fault) = self.replay(&whole, rings);
        let mut chunk = best.len().div_ceil(2).max(1);
        loop {
            let before = best.len();
            let mut end = best.len();
            while end > 0 && start.elapsed() < PATIENCE {
                let from = end.saturating_sub(chunk);
                let trial = [&best[..from], &best[end.min(best.len())..]].concat();
                let (played, found) = self.replay(&trial, rings);
                if found.as_ref().is_some_and(|found| found.same_sort(sort)) {
                    (best, fault) = (played, found);
                }
                end = from;
            }
            if chunk == 1 && best.len() == before {
                break;
            }
            chunk = chunk.div_ceil(2);
        }
        let steps = best.iter().map(|traced| traced.step).collect();
        (Case { sides: self.sides, keys: self.keys.clone(), steps }, fault.unwrap_or(sort.clone()))
    }

    /// Plays the steps up to the first fault: those that were played, with positions as they are now. The first
    /// implementation plays alone up to the last step. Demand 3 is judged until words are poked.
    fn replay(&self, steps: &[Traced], rings: &[&dyn Ring]) -> (Vec<Traced>, Option<Fault>) {
        let mut runner = Runner::new(rings);
        let mut played = Vec::new();
        if let Err(fault) = runner.open(self.sides, &self.keys) {
            return (played, Some(fault));
        }
        runner.lead();
        let mut queue = Some(Vec::new());
        for (place, traced) in steps.iter().enumerate() {
            if place + 1 == steps.len() {
                runner.join();
            }
            if matches!(traced.step, Step::Poke(..)) {
                queue = None;
            }
            let Some(now) = in_queue(queue.as_deref(), *traced) else { continue };
            played.push(now);
            let outcome = match now.step {
                Step::Play(word) if queue.is_some() => runner.play_watched(word),
                step => runner.step(step),
            };
            match outcome {
                Err(fault) => return (played, Some(fault)),
                Ok(answer) if answer == 0 => follow(&mut queue, now, runner.words()),
                Ok(_) => {}
            }
        }
        (played, None)
    }
}

/// The position that a delivery, echo or loss, or a preview of one, has in its word.
fn position(step: Step) -> Option<usize> {
    match step {
        Step::Play(word) | Step::Preview(Preview { word, .. }) if matches!(word >> 10, DELIVER | ECHO | LOSE) => {
            Some(word as usize & 1_023)
        }
        _ => None,
    }
}

/// The bits of a word above its position.
const DELIVER: u32 = 14 << 18;
const ECHO: u32 = DELIVER | 1;
const LOSE: u32 = 15 << 18;

fn is_echo(step: Step) -> bool {
    matches!(step, Step::Play(word) if word >> 10 == ECHO)
}

/// The step with another position in its word.
fn moved(step: Step, position: usize) -> Step {
    let there = |word: u32| word & !1_023 | position as u32;
    match step {
        Step::Play(word) => Step::Play(there(word)),
        Step::Preview(preview) => Step::Preview(Preview { word: there(preview.word), ..preview }),
        step => step,
    }
}

/// The step with the position of the message that it takes, and that message noted. None where it is no longer sent.
fn in_queue(queue: Option<&[Sent]>, traced: Traced) -> Option<Traced> {
    let (Some(queue), Some(place)) = (queue, position(traced.step)) else { return Some(traced) };
    let Some(message) = traced.takes else {
        return Some(Traced { takes: queue.get(place).copied(), ..traced });
    };
    let place = queue.iter().position(|&sent| sent == message)?;
    Some(Traced { step: moved(traced.step, place), ..traced })
}

/// After an accepted step: its message is taken out, unless it is echoed, and those that it sent are at the end. A list
/// is not followed, and a preview takes and sends nothing.
fn follow(queue: &mut Option<Vec<Sent>>, traced: Traced, words: &[u32]) {
    match traced.step {
        Step::PlayAll(_) => *queue = None,
        Step::Preview(_) => return,
        _ => {}
    }
    let Some(queue) = queue else { return };
    if let Some(place) = position(traced.step).filter(|_| !is_echo(traced.step)) {
        queue.remove(place);
    }
    let sent = look::messages(words) - queue.len();
    queue.extend((0..sent).map(|count| (traced.number, count)));
}
