//! A case: an opening and steps, played on one or more implementations at once.

use crate::alike::{self, Changed};
use crate::look;
use crate::previews::Preview;
use crate::reaches::Reach;
use crate::ring::{Ring, Routed, Sides};
use crate::routes::Route;
use crate::screens::{Screens, Seen};
use crate::senders;
use crate::unbroken::Unbroken;
use crate::LENGTH;
use std::fmt;

#[derive(Clone, Copy)]
pub enum Step {
    Play(u32),
    Preview(Preview),
    PlayAll(List),
    /// The word at a place is overwritten: damage.
    Poke(usize, u32),
    Leafset(u32),
    Connected(u32, u32),
    Groups,
    Route(Route),
    Reach(Reach),
    Screens(Screens),
    /// The screens beside those of a ring that is alike for the conductor, by a number.
    Alike(u32),
}

/// A list of event words for one call, and the number of places for their answers.
#[derive(Clone, Copy)]
pub struct List {
    words: [u32; List::MOST],
    length: usize,
    places: usize,
}

impl List {
    pub const MOST: usize = 16;

    pub fn new(list: &[u32], places: usize) -> List {
        let mut words = [0; List::MOST];
        words[..list.len()].copy_from_slice(list);
        List { words, length: list.len(), places }
    }

    /// The answer, and a digest of all places, which hold no answer before.
    fn play(&self, ring: &dyn Ring, words: &mut [u32]) -> Outcome {
        let mut answers = vec![0xA5; self.places];
        let answer = ring.play_all(words, &self.words[..self.length], &mut answers);
        (answer, digest(&answers))
    }
}

fn digest(bytes: &[u8]) -> u64 {
    bytes.iter().fold(0, |digest: u64, &byte| (digest ^ byte as u64).wrapping_mul(0x100_0000_01B3))
}

/// A digest of all that a route or a reach gives, with end and hops in its lowest two bytes.
fn value(routed: Routed, list: &[u8]) -> u64 {
    let (end, hops) = (routed.end.to_le_bytes(), routed.hops.to_le_bytes());
    digest(&[list, &end, &hops].concat()) << 16 | (end[0] as u64) << 8 | hops[0] as u64
}

impl fmt::Display for List {
    fn fmt(&self, f: &mut fmt::Formatter) -> fmt::Result {
        write!(f, "play_all(")?;
        self.words[..self.length].iter().try_for_each(|word| write!(f, "{word:08X} "))?;
        write!(f, "in {} places)", self.places)
    }
}

impl fmt::Display for Step {
    fn fmt(&self, f: &mut fmt::Formatter) -> fmt::Result {
        match *self {
            Step::Play(word) => write!(f, "{word:08X}"),
            Step::Preview(preview) => write!(f, "{preview}"),
            Step::PlayAll(list) => write!(f, "{list}"),
            Step::Poke(at, value) => write!(f, "@{at}={value:08X}"),
            Step::Leafset(x) => write!(f, "leafset({x})"),
            Step::Connected(a, b) => write!(f, "connected({a},{b})"),
            Step::Groups => write!(f, "groups()"),
            Step::Route(route) => write!(f, "{route}"),
            Step::Reach(reach) => write!(f, "{reach}"),
            Step::Screens(screens) => write!(f, "{screens}"),
            Step::Alike(number) => write!(f, "alike({number:X})"),
        }
    }
}

#[derive(Clone)]
pub struct Case {
    pub sides: Sides,
    pub keys: Vec<u32>,
    pub steps: Vec<Step>,
}

/// The words of a bench script: word 0, the keys, then the steps.
impl fmt::Display for Case {
    fn fmt(&self, f: &mut fmt::Formatter) -> fmt::Result {
        write!(f, "{:08X}", 1 << 28 | (self.keys.len() as u32) << 4 | self.sides.bits())?;
        self.keys.iter().try_for_each(|key| write!(f, " {:08X}", 2 << 28 | key))?;
        for (number, step) in self.steps.iter().enumerate() {
            write!(f, "{}{step}", if number % 10 == 0 { "\n" } else { " " })?;
        }
        Ok(())
    }
}

/// The answer of a call, with the value that comes beside it: 0 for a play, a digest for a list, a route and a reach,
/// for a preview how many words of its second buffer differ from the first implementation's.
type Outcome = (u32, u64);

/// The places where words differ, with both words.
type Differing = Vec<(usize, u32, u32)>;

fn differing(one: &[u32], other: &[u32]) -> Differing {
    let both = one.iter().zip(other).enumerate();
    both.filter(|(_, (one, other))| one != other).map(|(at, (&one, &other))| (at, one, other)).collect()
}

/// Some of the words that differ, and how many do.
fn list(f: &mut fmt::Formatter, words: &Differing, names: [&str; 2]) -> fmt::Result {
    for (at, one, other) in words.iter().take(10) {
        writeln!(f, "  word {at}: {} {one:08X}, {} {other:08X}", names[0], names[1])?;
    }
    write!(f, "  words that differ: {}", words.len())
}

/// What a run found.
#[derive(Clone)]
pub enum Fault {
    /// Two implementations differ: their names, what they answered, and the words that differ.
    Difference { names: [&'static str; 2], outcomes: [Outcome; 2], words: Differing },
    /// A preview wrote the ring.
    Written { name: &'static str, words: Differing },
    /// An event got another answer or left other words than its preview, just before it, had shown.
    Unforeseen { name: &'static str, answers: [u32; 2], words: Differing },
    /// Two implementations show other things on the screens.
    Screens { names: [&'static str; 2], differing: Vec<&'static str> },
    /// Rings that are alike for the conductor don't show what they have to.
    Unlike { line: String },
    /// A reach ends elsewhere than at the owner, or after too many hops.
    Astray { line: String },
    /// An accepted event left more messages of a sender than it may have.
    Talkative { name: &'static str, node: usize, messages: usize },
    /// Demand 3 is broken: two nodes that were connected no longer are.
    Parted { name: &'static str, nodes: (usize, usize) },
}

impl Fault {
    pub fn same_sort(&self, other: &Fault) -> bool {
        std::mem::discriminant(self) == std::mem::discriminant(other)
    }
}

impl fmt::Display for Fault {
    fn fmt(&self, f: &mut fmt::Formatter) -> fmt::Result {
        match self {
            Fault::Difference { names, outcomes, words } => {
                for (name, (answer, value)) in names.iter().zip(outcomes) {
                    writeln!(f, "  {name} answers {answer}, value {value:X}")?;
                }
                list(f, words, *names)
            }
            Fault::Written { name, words } => {
                writeln!(f, "  {name}: a preview wrote the ring")?;
                list(f, words, ["before", "after"])
            }
            Fault::Unforeseen { name, answers: [shown, given], words } => {
                writeln!(f, "  {name}: a preview answers {shown}, the event after it {given}")?;
                list(f, words, ["shown", "left"])
            }
            Fault::Screens { names: [one, other], differing } => {
                write!(f, "  {one} and {other} differ on the screens: {}", differing.join(", "))
            }
            Fault::Unlike { line } | Fault::Astray { line } => write!(f, "  {line}"),
            Fault::Talkative { name, node, messages } => {
                write!(f, "  {name}: after an accepted event node {node} has {messages} messages in flight")
            }
            Fault::Parted { name, nodes: (a, b) } => {
                write!(f, "  {name}: nodes {a} and {b} were connected with no acknowledgement in flight, and are parted")
            }
        }
    }
}

/// What a preview showed: the answer of the event, and the words after it.
struct Shown {
    word: u32,
    answer: u32,
    words: Vec<u32>,
}

/// Implementations in step, each with a buffer of its own.
pub struct Runner<'a> {
    rings: &'a [&'a dyn Ring],
    buffers: Vec<Vec<u32>>,
    /// How many of them play: only the first, or all.
    playing: usize,
    /// The ring as it was opened.
    opening: Vec<u32>,
    /// By the step before, where that was a preview with a second buffer of the right length.
    shown: Option<Shown>,
    /// Accepted events that were held to their preview.
    pub foreseen: u64,
    pub unbroken: Unbroken,
}

impl<'a> Runner<'a> {
    pub fn new(rings: &'a [&'a dyn Ring]) -> Runner<'a> {
        let buffers = vec![vec![0; LENGTH]; rings.len()];
        Runner {
            rings,
            buffers,
            playing: rings.len(),
            opening: vec![0; LENGTH],
            shown: None,
            foreseen: 0,
            unbroken: Unbroken::default(),
        }
    }

    /// From now on only the first implementation plays.
    pub fn lead(&mut self) {
        self.playing = 1;
    }

    /// All play on from what the first one has.
    pub fn join(&mut self) {
        self.playing = self.rings.len();
        let words = self.buffers[0].clone();
        self.restore(&words);
    }

    /// The words of the first implementation.
    pub fn words(&self) -> &[u32] {
        &self.buffers[0]
    }

    /// Puts the words back to what they were, in every buffer.
    pub fn restore(&mut self, words: &[u32]) {
        self.buffers.iter_mut().for_each(|buffer| buffer.copy_from_slice(words));
    }

    /// Opens over old words of any kind.
    pub fn open(&mut self, sides: Sides, keys: &[u32]) -> Result<u32, Fault> {
        let (answer, _) = self.call(|ring, words| (ring.open(words, sides, keys), 0))?;
        self.opening.copy_from_slice(&self.buffers[0]);
        self.unbroken.restart();
        Ok(answer)
    }

    pub fn step(&mut self, step: Step) -> Result<u32, Fault> {
        let shown = self.shown.take();
        let (answer, _) = match step {
            Step::Play(word) => {
                let outcome = self.call(|ring, words| (ring.play(words, word), 0))?;
                self.hold_to(shown.filter(|shown| shown.word == word), outcome.0)?;
                self.hold_to_bound(outcome.0)?;
                outcome
            }
            Step::Preview(preview) => (self.preview(preview)?, 0),
            Step::PlayAll(list) => self.call(|ring, words| list.play(ring, words))?,
            Step::Leafset(x) => self.call(|ring, words| ring.leafset_of(words, x))?,
            Step::Connected(a, b) => self.call(|ring, words| {
                let (answer, yes) = ring.connected(words, a, b);
                (answer, yes as u64)
            })?,
            Step::Groups => self.call(|ring, words| {
                let (answer, number) = ring.groups(words);
                (answer, number as u64)
            })?,
            Step::Route(route) => (self.route(route)?.0.answer, 0),
            Step::Reach(reach) => (self.reach(reach)?.answer, 0),
            Step::Screens(screens) => (self.screens(screens)?.answer, 0),
            Step::Alike(number) => {
                self.alike(number)?;
                (0, 0)
            }
            Step::Poke(at, value) => {
                self.buffers.iter_mut().for_each(|words| words[at] = value);
                (0, 0)
            }
        };
        Ok(answer)
    }

    /// A preview on every implementation: the ring stays as it is.
    fn preview(&mut self, preview: Preview) -> Result<u32, Fault> {
        let (before, opening) = (self.buffers[0].clone(), self.opening.clone());
        let mut seconds = Vec::new();
        let (answer, _) = self.call(|ring, words| {
            let (answer, second) = preview.ask(ring, words, &opening);
            seconds.push(second);
            (answer, differing(&seconds[0], &seconds[seconds.len() - 1]).len() as u64)
        })?;
        if self.buffers[0] != before {
            return Err(Fault::Written { name: self.rings[0].name(), words: differing(&before, &self.buffers[0]) });
        }
        if preview.lent == LENGTH {
            let words = if answer == 0 { seconds[0][..LENGTH].to_vec() } else { before };
            self.shown = Some(Shown { word: preview.word, answer, words });
        }
        Ok(answer)
    }

    /// After an event: what its preview showed, if there was one, has come.
    fn hold_to(&mut self, shown: Option<Shown>, given: u32) -> Result<(), Fault> {
        let Some(Shown { answer, words, .. }) = shown else { return Ok(()) };
        if answer != given || words != self.buffers[0] {
            let words = differing(&words, &self.buffers[0]);
            return Err(Fault::Unforeseen { name: self.rings[0].name(), answers: [answer, given], words });
        }
        self.foreseen += (answer == 0) as u64;
        Ok(())
    }

    /// After an event: accepted, it left no sender with more than it may have.
    fn hold_to_bound(&self, answer: u32) -> Result<(), Fault> {
        if answer != 0 {
            return Ok(());
        }
        match look::busiest(self.words()) {
            (_, 0..=senders::MOST) => Ok(()),
            (node, messages) => Err(Fault::Talkative { name: self.rings[0].name(), node, messages }),
        }
    }

    /// A route on every implementation: what the first one gives, and its list after it.
    pub fn route(&mut self, route: Route) -> Result<(Routed, Vec<u8>), Fault> {
        let mut given = Vec::new();
        self.call(|ring, words| {
            let (routed, list) = route.ask(ring, words);
            let outcome = (routed.answer, value(routed, &list));
            given.push((routed, list));
            outcome
        })?;
        Ok(given.swap_remove(0))
    }

    /// A reach on every implementation: what the first one gives.
    pub fn reach(&mut self, reach: Reach) -> Result<Routed, Fault> {
        let mut given = Vec::new();
        self.call(|ring, words| {
            let reached = reach.ask(ring, words);
            given.push(reached);
            (reached.answer, value(reached, &[]))
        })?;
        match reach.fault(self.words(), given[0]) {
            Some(fault) => Err(Fault::Astray { line: format!("{}: {fault}", self.rings[0].name()) }),
            None => Ok(given[0]),
        }
    }

    /// Both screens and the part on every implementation: what the first one shows.
    pub fn screens(&mut self, screens: Screens) -> Result<Seen, Fault> {
        let first = screens.ask(self.rings[0], &self.buffers[0]);
        for other in 1..self.playing {
            let differing = first.differing(&screens.ask(self.rings[other], &self.buffers[other]));
            if !differing.is_empty() {
                let names = [self.rings[0].name(), self.rings[other].name()];
                return Err(Fault::Screens { names, differing });
            }
        }
        Ok(first)
    }

    /// The screens of the ring and of one alike, on every implementation: in what these differ.
    pub fn alike(&mut self, number: u32) -> Result<Changed, Fault> {
        let hold = |ring: &&dyn Ring| alike::hold(*ring, &self.buffers[0], number);
        let held: Result<Vec<Changed>, String> = self.rings[..self.playing].iter().map(hold).collect();
        held.map(|changed| changed[0]).map_err(|line| Fault::Unlike { line })
    }

    /// One call on every implementation: the answers and all words have to agree.
    fn call(&mut self, mut call: impl FnMut(&dyn Ring, &mut [u32]) -> Outcome) -> Result<Outcome, Fault> {
        let first = call(self.rings[0], &mut self.buffers[0]);
        for other in 1..self.playing {
            let outcome = call(self.rings[other], &mut self.buffers[other]);
            if outcome != first || self.buffers[other] != self.buffers[0] {
                return Err(self.difference(other, [first, outcome]));
            }
        }
        Ok(first)
    }

    fn difference(&self, other: usize, outcomes: [Outcome; 2]) -> Fault {
        let words = differing(&self.buffers[0], &self.buffers[other]);
        Fault::Difference { names: [self.rings[0].name(), self.rings[other].name()], outcomes, words }
    }

    /// Plays an event word of a list from an opening: what demand 3 says of the list is judged, too.
    pub fn play_watched(&mut self, word: u32) -> Result<u32, Fault> {
        let named_is_off = word >> 28 == 11 && {
            let subject = (word >> 6 & 63) as usize;
            subject < look::nodes(self.words()) && !look::is_running(self.words(), subject)
        };
        let answer = self.step(Step::Play(word))?;
        if answer == 0 {
            let parted = self.unbroken.accepted(word, named_is_off, &self.buffers[0]);
            if let Some(nodes) = parted {
                return Err(Fault::Parted { name: self.rings[0].name(), nodes });
            }
        }
        Ok(answer)
    }
}
