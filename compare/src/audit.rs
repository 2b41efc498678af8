//! The account of a script, from its description: each event in words, whom it parted, and which events since the last
//! moment at which the promise could begin are none that it covers.

use crate::bench::{self, little_endian};
use crate::ring::Ring;
use crate::{LENGTH, look, text};
use std::collections::BTreeSet;
use std::fmt::Write;

const ANSWERS: [&str; 12] = [
    "accepted",
    "a ring buffer is not 13,441 words",
    "n, A or B is out of range",
    "a key is too big, or two are equal",
    "not an event",
    "a node with itself",
    "the words do not read as a ring",
    "no such node, or no such message",
    "the node is off",
    "the node runs already",
    "the clock is spent",
    "more than 1,024 messages would be in flight",
];

const LISTED: usize = 16;

/// 12 to 16 are other calls' answers.
const SENDER_FULL: (u32, &str) = (17, "a sender would have more than 256 in flight");

fn answer_text(answer: u32) -> String {
    let text = if answer == SENDER_FULL.0 { SENDER_FULL.1 } else { ANSWERS[answer as usize] };
    if answer == 0 { text.to_string() } else { format!("refused, {answer}: {text}") }
}

/// Events that the promise does not cover.
#[derive(Clone, Copy, PartialEq)]
enum Cause {
    On,
    Off,
    WrongNotice,
}

/// What an event is, were it accepted, that the promise does not cover.
fn cause(words: &[u32], event: u32) -> Option<Cause> {
    match event >> 28 {
        9 => Some(Cause::On),
        10 => Some(Cause::Off),
        11 => look::is_running(words, (event >> 6 & 63) as usize).then_some(Cause::WrongNotice),
        _ => None,
    }
}

/// The running nodes, in groups that hold one another directly or through others.
fn groups(words: &[u32]) -> Vec<BTreeSet<usize>> {
    let mut groups: Vec<BTreeSet<usize>> = Vec::new();
    for x in (0..look::nodes(words)).filter(|&x| look::is_running(words, x)) {
        let is_linked = |z: &usize| look::holds(words, x, *z) || look::holds(words, *z, x);
        let (linked, apart): (Vec<_>, Vec<_>) = groups.into_iter().partition(|group| group.iter().any(is_linked));
        groups = apart;
        groups.push(linked.into_iter().flatten().chain([x]).collect());
    }
    groups
}

/// The sides of each group that fell apart, by their lowest nodes.
fn sides(before: &[BTreeSet<usize>], after: &[BTreeSet<usize>]) -> Vec<BTreeSet<usize>> {
    let mut sides: Vec<BTreeSet<usize>> = Vec::new();
    for group in before {
        let parts: Vec<BTreeSet<usize>> = after.iter().map(|part| part & group).filter(|part| !part.is_empty()).collect();
        if parts.len() > 1 {
            sides.extend(parts);
        }
    }
    sides.sort();
    sides
}

struct Audit<'a> {
    ring: &'a dyn Ring,
    words: Vec<u32>,
    count: usize,
    /// The promise could begin after so many events.
    point: usize,
    /// Since then: each event that it does not cover, as a line, and what it is.
    uncovered: Vec<(String, Cause)>,
    /// What is in each verdict.
    verdicts: Vec<Vec<Cause>>,
    out: String,
}

/// The account of a script.
pub fn run(ring: &dyn Ring, script: &[u8]) -> String {
    let mut words = vec![0; LENGTH];
    match bench::open(ring, &mut words, script) {
        Ok(events) => {
            let (uncovered, verdicts) = (Vec::new(), Vec::new());
            let mut audit = Audit { ring, words, count: 0, point: 0, uncovered, verdicts, out: String::new() };
            events.chunks(4).for_each(|event| audit.event(event));
            audit.end();
            audit.out
        }
        Err(refusal) => format!("no ring: refused, {refusal}: {}\n", bench::fault(refusal)),
    }
}

impl Audit<'_> {
    fn in_flight(&self, is_such: impl Fn(usize) -> bool) -> usize {
        (0..look::messages(&self.words)).filter(|&position| is_such(position)).count()
    }

    fn acknowledgements(&self) -> usize {
        self.in_flight(|position| look::message_type(&self.words, position) == 10)
    }

    /// Messages of type 13 from nodes that run.
    fn late_leaves(&self) -> usize {
        self.in_flight(|position| {
            look::message_type(&self.words, position) == 13 && look::is_running(&self.words, look::sender(&self.words, position))
        })
    }

    /// The line of the event that was played last.
    fn line(&mut self, event: &str, answer: u32) {
        let (answer, messages) = (answer_text(answer), look::messages(&self.words));
        let (acknowledgements, groups) = (self.acknowledgements(), groups(&self.words).len());
        let state = format!("in flight {messages}, acknowledgements {acknowledgements}, groups {groups}");
        writeln!(self.out, "{} {event}: {answer}; {state}", self.count).unwrap();
    }

    fn event(&mut self, bytes: &[u8]) {
        self.count += 1;
        if bytes.len() < 4 {
            return self.line(&text::tail(bytes), 4);
        }
        let event = little_endian(bytes);
        let (before, cause) = (groups(&self.words), cause(&self.words, event));
        let answer = self.ring.play(&mut self.words, event);
        self.line(&text::word(event), answer);
        if let Some(cause) = cause.filter(|_| answer == 0) {
            self.uncovered.push((format!("    {} {}", self.count, text::word(event)), cause));
        }
        let sides = sides(&before, &groups(&self.words));
        if !sides.is_empty() {
            self.parted(&sides);
        }
        if self.acknowledgements() + self.late_leaves() == 0 {
            self.point = self.count;
            self.uncovered.clear();
        }
    }

    fn parted(&mut self, sides: &[BTreeSet<usize>]) {
        let side = |side: &BTreeSet<usize>| side.iter().map(|x| x.to_string()).collect::<Vec<_>>().join(" ");
        let sides: Vec<String> = sides.iter().map(side).collect();
        writeln!(self.out, "parted at event {}: {}", self.count, sides.join(" | ")).unwrap();
        let since = "it does not cover, since then:";
        writeln!(self.out, "  the promise last began after event {}; {since}", self.point).unwrap();
        for (line, _) in self.uncovered.iter().take(LISTED) {
            writeln!(self.out, "{line}").unwrap();
        }
        if self.uncovered.len() > LISTED {
            writeln!(self.out, "    and {} more", self.uncovered.len() - LISTED).unwrap();
        }
        self.verdicts.push(self.uncovered.iter().map(|(_, cause)| *cause).collect());
    }

    fn end(&mut self) {
        if self.verdicts.is_empty() {
            return self.out.push_str("never parted\n");
        }
        let with = |cause| self.verdicts.iter().filter(|verdict| verdict.contains(&cause)).count();
        let (ons, offs, notices) = (with(Cause::On), with(Cause::Off), with(Cause::WrongNotice));
        let causes = format!("an on in the verdict: {ons}, an off: {offs}, a wrong notice: {notices}");
        writeln!(self.out, "times parted: {}; {causes}", self.verdicts.len()).unwrap();
    }
}
