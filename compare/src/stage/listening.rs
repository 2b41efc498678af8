//! Listeners on a stage: how often loss alone makes a node notice one that runs, how soon it notices one that went off,
//! and what becomes of a stage on which notices are played.

use super::settling::{covers, random_of};
use super::simulated::{Conditions, Stage, MILLISECOND, SECOND};
use super::starts::{leafsets, Start};
use super::{in_threads, Plan};
use crate::events::{notice, off};
use crate::listener::{Listener, Record};
use crate::look;
use crate::plain::listener::Plain;
use crate::random::Random;
use crate::ring::{Ring, Sides};

const LISTENER: Plain = Plain { slip: None };

const HOUR: usize = 3_600;

/// A and B, which are equal.
const LEAVES: u32 = 2;

/// Nodes, the mean delay in milliseconds, hours, and how many of 100 messages are lost.
const STAGES: [(usize, u64, usize, &[usize]); 3] =
    [(16, 10, 6, &[0, 5, 10, 30]), (16, 250, 2, &[0, 5, 10, 30]), (64, 10, 2, &[5, 10, 30])];

const STAYING: [u8; 6] = [4, 6, 8, 12, 16, 24];

/// How many nodes go off, each from a stage of its own, and how many seconds one is waited for.
const GOING: u32 = 16;
const WAITED: usize = 30;

/// The most nodes of a stage on which notices are played.
const PLAYED: usize = 16;

/// How long these are played from a tree on.
const SECONDS: usize = 120;

#[derive(Clone, Copy, Debug)]
enum Windows {
    /// From 4 on, as document 02 has it.
    Grow,
    /// Of another listener, whose windows a hearing does not change.
    Stay(u8),
}

impl Windows {
    fn name(self) -> String {
        match self {
            Windows::Grow => "grow".to_string(),
            Windows::Stay(window) => window.to_string(),
        }
    }
}

/// Each sort hears the same stage.
fn sorts() -> Vec<Windows> {
    [Windows::Grow].into_iter().chain(STAYING.map(Windows::Stay)).collect()
}

fn members(set: u64) -> impl Iterator<Item = usize> {
    (0..64).filter(move |s| set >> s & 1 == 1)
}

/// A listener record for each node.
#[derive(Clone)]
struct Ears {
    windows: Windows,
    records: Vec<Record>,
}

impl Ears {
    /// A node watches whom it holds, from when it first does.
    fn watch(&mut self, x: usize, held: u64) {
        for s in members(held & !self.records[x].watched) {
            LISTENER.watch(&mut self.records[x], s as u32);
            self.set_back(x, s);
        }
    }

    fn hear(&mut self, x: usize, sender: usize) {
        if LISTENER.hear(&mut self.records[x], sender as u32) == 0 {
            self.set_back(x, sender);
        }
    }

    fn set_back(&mut self, x: usize, s: usize) {
        if let Windows::Stay(window) = self.windows {
            self.records[x].windows[s] = window;
        }
    }

    /// The windows of all that are watched.
    fn windows(&self) -> Vec<u8> {
        let each = |record: &Record| members(record.watched).map(|s| record.windows[s]).collect::<Vec<_>>();
        self.records.iter().flat_map(each).collect()
    }
}

#[derive(Clone, Copy, Debug)]
struct Case {
    start: Start,
    n: usize,
    leaves: u32,
    conditions: Conditions,
}

impl Case {
    fn settled(n: usize, delay: u64, lost: usize) -> Case {
        let conditions = Conditions { mean_delay: delay * MILLISECOND, lost, ..Conditions::GOOD };
        Case { start: Start::Settled, n, leaves: LEAVES, conditions }
    }

    fn hall<'a>(&self, ring: &'a dyn Ring, mut random: Random, sorts: &[Windows]) -> Hall<'a> {
        let words = self.start.words(ring, &mut random, self.n, Sides::from(self.leaves));
        let mut ticks: Vec<_> = (0..self.n).map(|x| (random.below(SECOND as usize) as u64, x)).collect();
        ticks.sort();
        let ears = sorts.iter().map(|&windows| Ears { windows, records: vec![Record::EMPTY; self.n] }).collect();
        let mut hall = Hall { stage: Stage::new(ring, random, words, self.conditions), ticks, ears };
        (0..self.n).for_each(|x| hall.watch(x));
        hall
    }
}

/// What a tick gave: which of the sorts, at whom, and the nodes noticed that are held there.
struct Notice {
    sort: usize,
    x: usize,
    of: u64,
}

/// A stage on which each node listens.
#[derive(Clone)]
struct Hall<'a> {
    stage: Stage<'a>,
    /// The moment in a second at which each node's listeners tick, in their order.
    ticks: Vec<(u64, usize)>,
    ears: Vec<Ears>,
}

impl<'a> Hall<'a> {
    fn watch(&mut self, x: usize) {
        let held = look::held(&self.stage.words, x);
        self.ears.iter_mut().for_each(|ears| ears.watch(x, held));
    }

    fn until(&mut self, moment: u64) {
        self.stage.until(moment);
        for (x, sender) in std::mem::take(&mut self.stage.heard) {
            self.watch(x);
            self.ears.iter_mut().for_each(|ears| ears.hear(x, sender));
        }
    }

    /// Each listener of each running node ticks once; `noticed` gets the notices at the moment of their tick.
    fn second(&mut self, mut noticed: impl FnMut(&mut Stage<'a>, Notice)) {
        let start = self.stage.now;
        for (moment, x) in self.ticks.clone() {
            self.until(start + moment);
            if !look::is_running(&self.stage.words, x) {
                continue;
            }
            let held = look::held(&self.stage.words, x);
            for (sort, ears) in self.ears.iter_mut().enumerate() {
                let of = LISTENER.tick(&mut ears.records[x]) & held;
                if of != 0 {
                    noticed(&mut self.stage, Notice { sort, x, of });
                }
            }
        }
        self.until(start + SECOND);
    }
}

/// What came of some hours in which no notice was played.
struct Heard {
    pairs: usize,
    /// By hour and sort.
    notices: Vec<Vec<u64>>,
    /// The windows that grow, at the end.
    windows: Vec<u8>,
    /// By sort: microseconds from a node's going off after that to each notice of it.
    waits: Vec<Vec<u64>>,
}

impl Heard {
    fn of(ring: &dyn Ring, seed: u64, case: Case, hours: usize) -> Heard {
        let mut hall = case.hall(ring, random_of(&case, seed, 0), &sorts());
        let pairs = hall.ears[0].windows().len();
        let hour = |_| {
            let mut notices = vec![0; sorts().len()];
            (0..HOUR).for_each(|_| hall.second(|_, notice| notices[notice.sort] += notice.of.count_ones() as u64));
            notices
        };
        let notices = (0..hours).map(hour).collect();
        let mut waits = vec![Vec::new(); sorts().len()];
        (0..GOING).for_each(|y| go(hall.clone(), y, &mut waits));
        Heard { pairs, notices, windows: hall.ears[0].windows(), waits }
    }

    /// Notices an hour of a sort.
    fn hourly(&self, sort: usize) -> f64 {
        self.notices.iter().map(|hour| hour[sort]).sum::<u64>() as f64 / self.notices.len() as f64
    }

    /// The windows and how many there are of each.
    fn sizes(&self) -> String {
        let count = |size: u8| self.windows.iter().filter(|&&window| window == size).count();
        let sizes = (0..=u8::MAX).filter(|&size| count(size) > 0);
        sizes.map(|size| format!("{size}: {}", count(size))).collect::<Vec<_>>().join(", ")
    }
}

/// A node goes off, and those who watch it notice.
fn go(mut hall: Hall, y: u32, waits: &mut [Vec<u64>]) {
    let start = hall.stage.now;
    assert_eq!(hall.stage.play(off(y)), 0, "off is accepted");
    for _ in 0..WAITED {
        hall.second(|stage, notice| {
            if notice.of >> y & 1 == 1 {
                waits[notice.sort].push(stage.now - start);
            }
        });
    }
}

/// Of a pair in which each holds the other: type 3 comes each second unless it is lost, type 4 unless it or what it
/// answers is lost. A window w passes when nothing comes between w ticks, in w - 1 seconds.
fn foretold(lost: usize, window: u8) -> f64 {
    let lost = lost as f64 / 100.0;
    let silent = lost * (1.0 - (1.0 - lost).powi(2));
    HOUR as f64 * (1.0 - silent) * silent.powi(window as i32 - 1)
}

/// By nodes, delay and loss: notices of nodes that run, with windows that grow and with others that stay, and seconds
/// until one that went off is noticed.
pub fn report(ring: &dyn Ring, plan: &Plan) {
    let stages = STAGES.into_iter().filter(|&(n, ..)| n <= plan.nodes);
    let rows = stages.flat_map(|(n, delay, hours, losses)| losses.iter().map(move |&lost| (n, delay, lost, hours)));
    let rows: Vec<_> = rows.collect();
    let heard = in_threads(plan.threads, rows.len(), |row| {
        let (n, delay, lost, hours) = rows[row];
        Heard::of(ring, plan.seed, Case::settled(n, delay, lost), hours)
    });
    let head = |&(n, delay, lost, _): &_| format!("{n:>4}{delay:>6}{lost:>6}");
    println!("\nListening on settled stages, A = B = {LEAVES}, one run each; nobody goes, and no notice is played:");
    println!("notices in each hour with windows that grow; then the windows, and how many there are of each");
    println!("   n delay  lost");
    rows.iter().zip(&heard).for_each(|(row, heard)| println!("{}{}", head(row), growing(heard)));
    println!("\nThe same with windows that stay: notices an hour; and as foretold, which leaves out types 11 and 12");
    print_windows(&STAYING.map(|window| window.to_string()));
    for (row, heard) in rows.iter().zip(&heard) {
        println!("{}{}", head(row), staying(heard, row.2));
    }
    println!("\nThe same: a node goes off after these hours, {GOING} times; seconds until one that watches it");
    println!("notices, mean and most");
    print_windows(&sorts().iter().map(|sort| sort.name()).collect::<Vec<_>>());
    rows.iter().zip(&heard).for_each(|(row, heard)| println!("{}{}", head(row), waits(heard)));
}

fn print_windows(names: &[String]) {
    print!("   n delay  lost");
    names.iter().for_each(|name| print!("{name:>20}"));
    println!();
}

fn growing(heard: &Heard) -> String {
    let hours: Vec<String> = heard.notices.iter().map(|notices| notices[0].to_string()).collect();
    format!("   {}; {}", hours.join(" "), heard.sizes())
}

fn staying(heard: &Heard, lost: usize) -> String {
    let cell = |(place, &window): (usize, &u8)| {
        let foretold = heard.pairs as f64 * foretold(lost, window);
        format!("{:>20}", format!("{:.1} {foretold:.1e}", heard.hourly(1 + place)))
    };
    STAYING.iter().enumerate().map(cell).collect()
}

fn waits(heard: &Heard) -> String {
    let seconds = |time: f64| time / SECOND as f64;
    let cell = |waits: &Vec<u64>| {
        let mean = waits.iter().sum::<u64>() as f64 / waits.len() as f64;
        let most = waits.iter().copied().max().unwrap_or(0) as f64;
        format!("{:>20}", format!("{:.1} {:.1}", seconds(mean), seconds(most)))
    };
    heard.waits.iter().map(cell).collect()
}

/// What came of stages on which each notice of a held node was played.
#[derive(Clone, Copy, Default)]
struct Played {
    /// Notices of nodes that run.
    wrong: u64,
    /// Seconds after which a node did not hold its leafset.
    uncovered: u64,
    /// Stages that were more than one group after a second, and after the last.
    parted: u64,
    parted_at_end: u64,
}

impl Played {
    fn of(ring: &dyn Ring, mut hall: Hall, seconds: usize) -> Played {
        let leafsets = leafsets(ring, &hall.stage.words);
        let mut played = Played::default();
        for _ in 0..seconds {
            hall.second(|stage, Notice { x, of, .. }| {
                played.wrong += members(of).filter(|&s| look::is_running(&stage.words, s)).count() as u64;
                members(of).for_each(|s| assert_eq!(stage.play(notice(x as u32, s as u32)), 0, "accepted"));
            });
            played.uncovered += !covers(&hall.stage.words, &leafsets) as u64;
            played.parted_at_end = (ring.groups(&hall.stage.words).1 > 1) as u64;
            played.parted |= played.parted_at_end;
        }
        played
    }

    fn and(self, other: Played) -> Played {
        Played {
            wrong: self.wrong + other.wrong,
            uncovered: self.uncovered + other.uncovered,
            parted: self.parted + other.parted,
            parted_at_end: self.parted_at_end + other.parted_at_end,
        }
    }

    /// So many runs of a case, by all threads.
    fn runs(ring: &dyn Ring, plan: &Plan, case: Case, windows: Windows, runs: usize, seconds: usize) -> Played {
        let played = in_threads(plan.threads, runs, |run| {
            Played::of(ring, case.hall(ring, random_of(&case, plan.seed, run), &[windows]), seconds)
        });
        played.into_iter().fold(Played::default(), Played::and)
    }

    fn shown(self) -> String {
        format!("{:>20}", format!("{} {} {} {}", self.wrong, self.uncovered, self.parted, self.parted_at_end))
    }
}

/// By loss and windows: stages on which notices are played, settled ones by A = B, too, and from a tree on.
pub fn report_played(ring: &dyn Ring, plan: &Plan) {
    let head = |name: &str, sorts: &[Windows]| {
        println!("{name}{}", sorts.iter().map(|sort| format!("{:>20}", sort.name())).collect::<String>());
    };
    let n = PLAYED.min(plan.nodes);
    println!("\nNotices are played, {n} nodes, mean delay 10 ms: wrong notices, seconds after which a node does not");
    println!("hold its leafset, runs that were parted, runs parted at the end. Settled stages,");
    println!("{} runs of an hour", plan.seeds);
    let sorts = [Windows::Grow, Windows::Stay(12)];
    head(" A=B  lost", &sorts);
    for (leaves, lost) in [1, 2].into_iter().flat_map(|leaves| [10, 30, 50].map(|lost| (leaves, lost))) {
        let case = Case { leaves, ..Case::settled(n, 10, lost) };
        let cells = sorts.map(|sort| Played::runs(ring, plan, case, sort, plan.seeds, HOUR).shown());
        println!("{leaves:>4}{lost:>6}{}", cells.concat());
    }
    let runs = 4 * plan.seeds;
    println!("\nThe same from a tree on, A = B = {LEAVES}, {runs} runs of {SECONDS} seconds");
    let sorts = [Windows::Grow, Windows::Stay(6), Windows::Stay(8), Windows::Stay(12)];
    head("      lost", &sorts);
    for lost in [0, 5, 10, 30] {
        let case = Case { start: Start::Tree, ..Case::settled(n, 10, lost) };
        let cells = sorts.map(|sort| Played::runs(ring, plan, case, sort, runs, SECONDS).shown());
        println!("{lost:>10}{}", cells.concat());
    }
}
