//! Random scripts, played on implementations in step, with damaged buffers between the events.

use crate::alike;
use crate::case::{Case, Fault, List, Runner, Step};
use crate::damage::damage;
use crate::look;
use crate::previews::{self, Preview};
use crate::random::Random;
use crate::reaches::{self, Reach};
use crate::ring::Ring;
use crate::routes::{self, Route};
use crate::screens::{self, Screens};
use crate::script::{Mix, Script};
use crate::senders;
use crate::unbroken::Tested;
use crate::ANSWERS;
use std::fmt;
use std::sync::atomic::{AtomicBool, Ordering};
use std::thread;

pub struct Plan {
    pub seed: u64,
    pub events: u64,
    pub damaged: u64,
    /// Routes at least.
    pub routes: u64,
    /// Reaches at least.
    pub reaches: u64,
    /// Previews at least.
    pub previews: u64,
    /// Screens at least, each time both and the part.
    pub screens: u64,
    /// Joins, each accepted one played on.
    pub joins: u64,
    pub mixes: Vec<Mix>,
    /// Scripts have from 1 to this number of nodes.
    pub nodes: usize,
    pub threads: u64,
}

/// What a run did.
#[derive(Default)]
pub struct Tally {
    pub scripts: u64,
    pub events: u64,
    pub damaged: u64,
    /// Damaged buffers that still read as a ring.
    pub valid: u64,
    pub questions: u64,
    /// Lists of events played by one call, and those of them that the buffer refused.
    pub lists: u64,
    pub refused_lists: u64,
    /// Answers to the events, by number, those on damaged buffers included.
    pub answers: [u64; ANSWERS],
    /// Of these events.
    pub senders: senders::Tally,
    /// Accepted deliveries by type, and accepted echoes.
    pub delivered: [u64; 14],
    pub echoed: [u64; 14],
    /// On rings as the events left them, and on damaged buffers.
    pub routes: routes::Tally,
    pub damaged_routes: routes::Tally,
    /// Likewise.
    pub reaches: reaches::Tally,
    pub damaged_reaches: reaches::Tally,
    /// Likewise.
    pub previews: previews::Tally,
    pub damaged_previews: previews::Tally,
    /// Accepted events that were held to a preview just before them.
    pub foreseen: u64,
    /// As the routes.
    pub screens: screens::Tally,
    pub damaged_screens: screens::Tally,
    pub alike: alike::Tally,
    pub tested: Tested,
}

impl Tally {
    fn add(&mut self, other: &Tally) {
        self.scripts += other.scripts;
        self.events += other.events;
        self.damaged += other.damaged;
        self.valid += other.valid;
        self.questions += other.questions;
        self.lists += other.lists;
        self.refused_lists += other.refused_lists;
        self.answers.iter_mut().zip(other.answers).for_each(|(sum, count)| *sum += count);
        self.senders.add(&other.senders);
        self.delivered.iter_mut().zip(other.delivered).for_each(|(sum, count)| *sum += count);
        self.echoed.iter_mut().zip(other.echoed).for_each(|(sum, count)| *sum += count);
        self.routes.add(&other.routes);
        self.damaged_routes.add(&other.damaged_routes);
        self.reaches.add(&other.reaches);
        self.damaged_reaches.add(&other.damaged_reaches);
        self.previews.add(&other.previews);
        self.damaged_previews.add(&other.damaged_previews);
        self.foreseen += other.foreseen;
        self.screens.add(&other.screens);
        self.damaged_screens.add(&other.damaged_screens);
        self.alike.add(&other.alike);
        self.tested.add(other.tested);
    }
}

impl fmt::Display for Tally {
    fn fmt(&self, f: &mut fmt::Formatter) -> fmt::Result {
        let Tally { scripts, events, damaged, valid, questions, lists, refused_lists, answers, delivered, .. } = self;
        writeln!(f, "{scripts} scripts, {events} events, {questions} questions")?;
        writeln!(f, "{lists} lists of events by one call, of which {refused_lists} were refused")?;
        writeln!(f, "{damaged} damaged buffers, of which {valid} still read as a ring")?;
        writeln!(f, "answers 0 to 17: {answers:?}\n{}", self.senders)?;
        writeln!(f, "delivered, types 1 to 13: {:?}", &delivered[1..])?;
        writeln!(f, "echoed, types 1 to 13: {:?}", &self.echoed[1..])?;
        writeln!(f, "{}\non damaged buffers: {}", self.routes, self.damaged_routes)?;
        writeln!(f, "{}\non damaged buffers: {}", self.reaches, self.damaged_reaches)?;
        writeln!(f, "{}\non damaged buffers: {}", self.previews, self.damaged_previews)?;
        writeln!(f, "  {} accepted events came as a preview just before them had shown", self.foreseen)?;
        writeln!(f, "{}\non damaged buffers: {}\n{}", self.screens, self.damaged_screens, self.alike)?;
        let Tested { starts, points, spans, acknowledged, echoed, released, released_by_echo, leaving } = self.tested;
        writeln!(f, "demand 3: {points} points tested, against {starts} chosen points, {spans} pairs of points;")?;
        writeln!(f, "  {acknowledged} of them with an acknowledgement in flight, {echoed} just after its echo;")?;
        writeln!(f, "  {released} links released, {released_by_echo} of them by an acknowledgement's echo;")?;
        write!(f, "  {leaving} points not chosen for a type 13 from a running node alone")
    }
}

/// A fault with the case that shows it.
pub struct Found {
    pub fault: Fault,
    pub case: Case,
    pub script: u64,
    pub mix: Mix,
}

/// Plays scripts until the plan is fulfilled or something is found. Each thread has every `threads`th script.
pub fn run(plan: &Plan, rings: &[&dyn Ring]) -> (Tally, Option<Found>) {
    let stop = AtomicBool::new(false);
    let results: Vec<_> = thread::scope(|scope| {
        let start = |first| scope.spawn({ let stop = &stop; move || run_thread(plan, rings, first, stop) });
        let threads: Vec<_> = (0..plan.threads).map(start).collect();
        threads.into_iter().map(|thread| thread.join().unwrap()).collect()
    });
    let mut tally = Tally::default();
    let mut found: Option<Found> = None;
    for (of_thread, of_thread_found) in results {
        tally.add(&of_thread);
        found = found.into_iter().chain(of_thread_found).min_by_key(|found| found.script);
    }
    (tally, found)
}

fn run_thread(plan: &Plan, rings: &[&dyn Ring], first: u64, stop: &AtomicBool) -> (Tally, Option<Found>) {
    let mut tally = Tally::default();
    let mut script = first;
    let fulfilled = |tally: &Tally| {
        let share = |count: u64| count.div_ceil(plan.threads);
        tally.events >= plan.events / plan.threads
            && tally.routes.count() >= share(plan.routes)
            && tally.reaches.count() >= share(plan.reaches)
            && tally.previews.count() >= share(plan.previews)
            && tally.screens.count() >= share(plan.screens)
    };
    while !fulfilled(&tally) && !stop.load(Ordering::Relaxed) {
        let mix = plan.mixes[script as usize % plan.mixes.len()];
        // Each n in turn, small and large ones mixed.
        let n = 1 + 37 * (script as usize / plan.mixes.len()) % plan.nodes;
        if let Some((fault, case)) = Play::new(plan, rings, script, mix, n).run(&mut tally) {
            stop.store(true, Ordering::Relaxed);
            return (tally, Some(Found { fault, case, script, mix }));
        }
        script += plan.threads;
    }
    (tally, None)
}

/// One script under way.
struct Play<'a> {
    runner: Runner<'a>,
    script: Script,
    random: Random,
    case: Case,
    /// Damaged buffers, routes, reaches, previews and screens for each 1,000 events.
    damage_rate: u64,
    route_rate: u64,
    reach_rate: u64,
    preview_rate: u64,
    screen_rate: u64,
    /// Of a hundred damaged buffers those in which a sender stands at its bound.
    bound_rate: usize,
}

impl<'a> Play<'a> {
    fn new(plan: &Plan, rings: &'a [&'a dyn Ring], number: u64, mix: Mix, n: usize) -> Play<'a> {
        let mut script = Script::new(Random::new(plan.seed, 2 * number), mix, n);
        let (sides, keys) = script.opening();
        let rate = |count: u64| count * 1_000 / plan.events.max(1);
        Play {
            runner: Runner::new(rings),
            script,
            random: Random::new(plan.seed, 2 * number + 1),
            case: Case { sides, keys, steps: Vec::new() },
            damage_rate: rate(plan.damaged),
            route_rate: rate(plan.routes),
            reach_rate: rate(plan.reaches),
            preview_rate: rate(plan.previews),
            screen_rate: rate(plan.screens),
            bound_rate: if mix == Mix::Talkative { 100 } else { 2 },
        }
    }

    fn run(mut self, tally: &mut Tally) -> Option<(Fault, Case)> {
        let outcome = self.play_all(tally);
        tally.scripts += 1;
        tally.tested.add(self.runner.unbroken.tested);
        tally.foreseen += self.runner.foreseen;
        outcome.err().map(|fault| (fault, self.case))
    }

    fn play_all(&mut self, tally: &mut Tally) -> Result<(), Fault> {
        self.runner.open(self.case.sides, &self.case.keys)?;
        let n = self.case.keys.len();
        for _ in 0..200 + 40 * n + self.random.below(1_000) {
            let word = self.script.next(self.runner.words());
            for _ in 0..self.times(self.preview_rate) {
                let any = self.script.any(self.runner.words());
                self.preview(word, any, &mut tally.previews)?;
            }
            self.play(word, tally)?;
            if self.random.percent(10) {
                self.ask(tally)?;
            }
            if self.random.percent(5) {
                let before = self.runner.words().to_vec();
                self.play_list(&before, tally)?;
            }
            for _ in 0..self.times(self.damage_rate) {
                self.damage(tally)?;
            }
            for _ in 0..self.times(self.route_rate) {
                self.route(&mut tally.routes)?;
            }
            for _ in 0..self.times(self.reach_rate) {
                self.reach(&mut tally.reaches)?;
            }
            for _ in 0..self.times(self.screen_rate) {
                self.screens(&mut tally.screens)?;
                self.alike(&mut tally.alike)?;
            }
        }
        Ok(())
    }

    /// How often something is done after an event, by its rate for each 1,000.
    fn times(&mut self, rate: u64) -> u64 {
        rate / 1_000 + (self.random.below(1_000) < rate as usize % 1_000) as u64
    }

    fn play(&mut self, word: u32, tally: &mut Tally) -> Result<(), Fault> {
        let delivered = (word >> 28 == 14 && (word as usize & 1_023) < look::messages(self.runner.words()))
            .then(|| look::message_type(self.runner.words(), word as usize & 1_023));
        self.case.steps.push(Step::Play(word));
        let answer = self.runner.play_watched(word)?;
        tally.events += 1;
        tally.answers[answer as usize] += 1;
        tally.senders.note(word, answer, self.runner.words());
        if let (0, Some(kind)) = (answer, delivered) {
            let counts = if word >> 10 & 1 == 1 { &mut tally.echoed } else { &mut tally.delivered };
            counts[kind as usize] += 1;
        }
        Ok(())
    }

    /// A preview of the word that is played next, or of any. It stays on the case: the event after it is held to it.
    fn preview(&mut self, next: u32, any: u32, tally: &mut previews::Tally) -> Result<(), Fault> {
        let preview = Step::Preview(Preview::any(&mut self.random, next, any));
        self.case.steps.push(preview);
        tally.note(self.runner.step(preview)?);
        Ok(())
    }

    /// A question, on the case for as long as it is asked.
    fn ask(&mut self, tally: &mut Tally) -> Result<(), Fault> {
        let n = self.case.keys.len();
        let (a, b) = (self.random.below(n + 1) as u32, self.random.below(n + 1) as u32);
        let question = match self.random.below(4) {
            0 => Step::Leafset(a),
            1 | 2 => Step::Connected(a, b),
            _ => Step::Groups,
        };
        self.case.steps.push(question);
        self.runner.step(question)?;
        self.case.steps.pop();
        tally.questions += 1;
        Ok(())
    }

    /// A route, on the case for as long as it is asked for.
    fn route(&mut self, tally: &mut routes::Tally) -> Result<(), Fault> {
        let route = Route::any(&mut self.random, self.runner.words(), self.case.keys.len());
        self.case.steps.push(Step::Route(route));
        let (routed, list) = self.runner.route(route)?;
        self.case.steps.pop();
        tally.note(self.runner.words(), route.key, routed, &list);
        Ok(())
    }

    /// A reach, on the case for as long as it is asked for.
    fn reach(&mut self, tally: &mut reaches::Tally) -> Result<(), Fault> {
        let reach = Reach::any(&mut self.random, self.runner.words(), self.case.keys.len());
        self.case.steps.push(Step::Reach(reach));
        tally.note(self.runner.reach(reach)?);
        self.case.steps.pop();
        Ok(())
    }

    /// Both screens and the part, on the case for as long as they are asked for.
    fn screens(&mut self, tally: &mut screens::Tally) -> Result<(), Fault> {
        let screens = Screens::any(&mut self.random);
        self.case.steps.push(Step::Screens(screens));
        let seen = self.runner.screens(screens)?;
        self.case.steps.pop();
        tally.note(self.runner.words(), &seen);
        Ok(())
    }

    /// A fifth of the rings beside one that is alike for the conductor.
    fn alike(&mut self, tally: &mut alike::Tally) -> Result<(), Fault> {
        if !self.random.percent(20) {
            return Ok(());
        }
        let number = self.random.word();
        self.case.steps.push(Step::Alike(number));
        tally.note(self.runner.alike(number)?);
        self.case.steps.pop();
        Ok(())
    }

    /// Plays a list by one call, on the case for as long as it is played, and puts the words back.
    fn play_list(&mut self, chosen_by: &[u32], tally: &mut Tally) -> Result<(), Fault> {
        let words: Vec<u32> = (0..self.random.below(List::MOST + 1)).map(|_| self.script.any(chosen_by)).collect();
        let more = self.random.below(4);
        let places = if self.random.percent(50) { words.len() + more } else { self.random.below(words.len() + 1) };
        let before = self.runner.words().to_vec();
        let list = Step::PlayAll(List::new(&words, places));
        self.case.steps.push(list);
        let answer = self.runner.step(list)?;
        self.case.steps.pop();
        self.runner.restore(&before);
        tally.lists += 1;
        tally.refused_lists += (answer != 0) as u64;
        Ok(())
    }

    /// Damages the buffers, plays some events and asks on them, and puts everything back.
    fn damage(&mut self, tally: &mut Tally) -> Result<(), Fault> {
        let before = self.runner.words().to_vec();
        let length = self.case.steps.len();
        let damage = damage(&mut self.random, &before, self.bound_rate);
        for poke in damage.pokes {
            self.case.steps.push(poke);
            self.runner.step(poke)?;
        }
        tally.damaged += 1;
        if self.random.percent(20) {
            self.play_list(&before, tally)?;
        }
        let next = damage.event.unwrap_or_else(|| self.script.any(&before));
        if self.preview_rate > 0 && self.random.percent(20) {
            let any = self.script.any(&before);
            self.preview(next, any, &mut tally.damaged_previews)?;
        }
        self.play_on_damaged(next, &before, tally)?;
        if self.random.percent(20) {
            self.ask(tally)?;
        }
        if self.route_rate > 0 && self.random.percent(20) {
            self.route(&mut tally.damaged_routes)?;
        }
        if self.reach_rate > 0 && self.random.percent(20) {
            self.reach(&mut tally.damaged_reaches)?;
        }
        if self.screen_rate > 0 && self.random.percent(20) {
            self.screens(&mut tally.damaged_screens)?;
        }
        self.case.steps.truncate(length);
        self.runner.restore(&before);
        Ok(())
    }

    /// Up to four events; one where the words no longer read as a ring.
    fn play_on_damaged(&mut self, first: u32, before: &[u32], tally: &mut Tally) -> Result<(), Fault> {
        let mut reads = false;
        for number in 0..4 {
            // Damage may leave any n: the choice is by the words before it.
            let word = if number == 0 { first } else { self.script.any(before) };
            self.case.steps.push(Step::Play(word));
            let answer = self.runner.step(Step::Play(word))?;
            tally.answers[answer as usize] += 1;
            tally.senders.note(word, answer, self.runner.words());
            if answer == 6 {
                break;
            }
            reads |= answer != 4 && answer != 5;
        }
        tally.valid += reads as u64;
        Ok(())
    }
}
