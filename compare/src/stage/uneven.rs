//! How many stages settle where A is unlike B: as they are, where each node contacts the next one clockwise, and after
//! nodes have gone and come back.

use super::settling::{covers, random_of, Settling};
use super::simulated::{Conditions, Stage};
use super::starts::{by_key, each_and_next, leafsets, Start};
use super::{in_threads, Plan};
use crate::events::{contact, notice, off, on};
use crate::look;
use crate::random::Random;
use crate::ring::{Ring, Sides};

/// A and B: alike, to compare with, and unlike.
const SIDES: [(u32, u32); 8] = [(1, 1), (2, 2), (8, 8), (1, 2), (2, 1), (1, 8), (2, 4), (3, 8)];

const STARTS: [Start; 6] = Start::UNSETTLED;

/// The nodes of the largest stage.
const LARGEST: usize = 32;

/// A stage is given up after so many seconds.
const LIMIT: usize = 100;

/// What has happened to a stage before it is played.
const PARTS: [&str; 6] = ["as it is", "contacts", "gone", "back", "gone, contacts", "back, contacts"];

type Ends = [End; PARTS.len()];

#[derive(Clone, Copy, Debug)]
struct Case {
    start: Start,
    n: usize,
    sides: Sides,
}

impl Case {
    fn run(&self, ring: &dyn Ring, seed: u64, run: usize) -> Ends {
        let story = || Story::new(self, ring, random_of(self, seed, run));
        let as_it_is = story().end();
        let mut alone = story();
        alone.contact_next();
        let contacted = alone.end();
        let mut helped = alone.clone();
        let [gone, back] = alone.go_and_come_back(false);
        let [gone_helped, back_helped] = helped.go_and_come_back(true);
        [as_it_is, contacted, gone, back, gone_helped, back_helped]
    }

    /// Whether it is covered within the limit: as it is, and with contacts.
    fn joins(&self, ring: &dyn Ring, seed: u64, run: usize) -> [bool; 2] {
        [false, true].map(|contacts| {
            let mut story = Story::new(self, ring, random_of(self, seed, run));
            if contacts {
                story.contact_next();
            }
            story.is_covered()
        })
    }
}

/// A stage, and random numbers for what happens to it from outside.
#[derive(Clone)]
struct Story<'a> {
    ring: &'a dyn Ring,
    random: Random,
    stage: Stage<'a>,
}

impl<'a> Story<'a> {
    fn new(case: &Case, ring: &'a dyn Ring, mut random: Random) -> Story<'a> {
        let words = case.start.words(ring, &mut random, case.n, case.sides);
        let (inside, outside) = (Random::new(random.next(), 0), random);
        Story { ring, random: outside, stage: Stage::new(ring, inside, words, Conditions::GOOD) }
    }

    fn accepted(&mut self, word: u32) {
        assert_eq!(self.stage.play(word), 0, "{word:08X} is accepted");
    }

    fn contact_next(&mut self) {
        for (x, y) in each_and_next(&self.stage.words) {
            self.accepted(contact(x as u32, y as u32));
        }
    }

    /// How it ends without a quarter of its nodes, and with them again. With contacts, each running node contacts the
    /// next one after they have gone, and after they have come back.
    fn go_and_come_back(&mut self, contacts: bool) -> [End; 2] {
        let gone = self.go();
        let without = self.end_after(contacts);
        self.come_back(&gone);
        [without, self.end_after(contacts)]
    }

    /// A quarter of the nodes goes off, and a second later each node that holds one of them gets a notice of it.
    fn go(&mut self) -> Vec<u32> {
        let mut left = self.stage.words.clone();
        let gone: Vec<u32> = (0..look::nodes(&left) / 4).map(|_| self.next_to_go(&mut left)).collect();
        gone.iter().for_each(|&x| self.accepted(off(x)));
        self.stage.second();
        let notices: Vec<u32> = gone.iter().flat_map(|&x| notices(&self.stage.words, x)).collect();
        notices.into_iter().for_each(|word| self.accepted(word));
        gone
    }

    /// Any node without which those who are left are one group; the words become theirs.
    fn next_to_go(&mut self, left: &mut Vec<u32>) -> u32 {
        let mut running = by_key(left);
        loop {
            let x = running.swap_remove(self.random.below(running.len())) as u32;
            let mut without = left.clone();
            for word in [vec![off(x)], notices(left, x)].concat() {
                assert_eq!(self.ring.play(&mut without, word), 0, "{word:08X} is accepted");
            }
            if self.ring.groups(&without).1 == 1 {
                *left = without;
                return x;
            }
        }
    }

    /// Each comes on and contacts one of those that run.
    fn come_back(&mut self, gone: &[u32]) {
        let running = by_key(&self.stage.words);
        for &x in gone {
            self.accepted(on(x));
            let y = self.random.pick(&running) as u32;
            self.accepted(contact(x, y));
        }
    }

    fn end_after(&mut self, contacts: bool) -> End {
        if contacts {
            self.contact_next();
        }
        self.end()
    }

    /// Whether the stage is covered within the limit.
    fn is_covered(&mut self) -> bool {
        let leafsets = leafsets(self.ring, &self.stage.words);
        (0..LIMIT).any(|_| {
            self.stage.second();
            covers(&self.stage.words, &leafsets)
        })
    }

    /// Plays until the stage is settled, or to the limit.
    fn end(&mut self) -> End {
        let leafsets = leafsets(self.ring, &self.stage.words);
        let settling = Settling::of(&mut self.stage, &leafsets, LIMIT);
        End::of(self.ring, &self.stage.words, &leafsets, settling)
    }
}

/// A notice of the node for each that holds it.
fn notices(words: &[u32], x: u32) -> Vec<u32> {
    let holders = by_key(words).into_iter().filter(|&y| look::holds(words, y, x as usize));
    holders.map(|y| notice(y as u32, x)).collect()
}

/// How some stages ended.
#[derive(Clone, Copy, Default)]
struct End {
    stages: u64,
    covered: u64,
    settled: u64,
    /// Those that are more than one group.
    parted: u64,
    /// The most seconds until one of those that are covered was so.
    seconds: usize,
    /// Running nodes, and nodes that they hold outside their leafset of all running nodes.
    nodes: u64,
    outside: u64,
    /// Routes from each running node to the key of each other one, and those that end elsewhere.
    routes: u64,
    astray: u64,
}

impl End {
    fn of(ring: &dyn Ring, words: &[u32], leafsets: &[u64], settling: Settling) -> End {
        let running = by_key(words);
        let outside = |&x: &usize| (look::held(words, x) & !leafsets[x]).count_ones() as u64;
        let pairs = running.iter().flat_map(|&x| running.iter().map(move |&y| (x, y))).filter(|(x, y)| x != y);
        let ends = pairs.map(|(x, y)| ring.route(words, x as u32, look::key(words, y), &mut [0; 64]).end as usize != y);
        End {
            stages: 1,
            covered: settling.covered.is_some() as u64,
            settled: settling.exact.is_some() as u64,
            parted: (ring.groups(words).1 != 1) as u64,
            seconds: settling.covered.unwrap_or(0),
            nodes: running.len() as u64,
            outside: running.iter().map(outside).sum(),
            routes: (running.len() * (running.len() - 1)) as u64,
            astray: ends.filter(|&astray| astray).count() as u64,
        }
    }

    fn and(self, other: End) -> End {
        End {
            stages: self.stages + other.stages,
            covered: self.covered + other.covered,
            settled: self.settled + other.settled,
            parted: self.parted + other.parted,
            seconds: self.seconds.max(other.seconds),
            nodes: self.nodes + other.nodes,
            outside: self.outside + other.outside,
            routes: self.routes + other.routes,
            astray: self.astray + other.astray,
        }
    }

    fn shown(self) -> String {
        let outside = self.outside as f64 / self.nodes as f64;
        let astray = match self.astray {
            0 => "none".to_string(),
            astray => format!("{:.1}", 100.0 * astray as f64 / self.routes as f64),
        };
        let parted = if self.parted > 0 { format!(" parted {}", self.parted) } else { String::new() };
        format!("{} {} {} {outside:.1} {astray}{parted}", self.covered, self.settled, self.seconds)
    }
}

/// By A, B and nodes: what has happened to a stage, and its start.
pub fn report(ring: &dyn Ring, plan: &Plan) {
    let sizes = || plan.sizes().filter(|&n| n <= LARGEST);
    let sorts: Vec<(Sides, usize)> = SIDES.iter().flat_map(|&sides| sizes().map(move |n| (sides.into(), n))).collect();
    let runs: Vec<Vec<Ends>> = sorts.iter().map(|&(sides, n)| run_all(ring, plan, sides, n)).collect();
    let stages = STARTS.len() * plan.seeds;
    println!("\nOf {stages} stages, {} from each start: how many are covered and how many settled", plan.seeds);
    println!("after {LIMIT} seconds; the most seconds until covered, of those that are; how many a node holds outside");
    println!("its leafset; % of the routes from each node to each other's key that end elsewhere. Mean delay 10 ms,");
    println!("nothing lost. Contacts: each node contacts the next running one clockwise. Gone, back: after that a");
    println!("quarter of the nodes goes; comes back with one contact each; or with the contacts again after either");
    table(&sorts, &PARTS, |sort, part| sum(runs[sort].iter().map(|ends| ends[part])));
    println!("\nThe same as it is, by start");
    table(&sorts, &STARTS.map(Start::name), |sort, start| {
        sum(runs[sort][start * plan.seeds..][..plan.seeds].iter().map(|ends| ends[0]))
    });
}

fn sum(ends: impl Iterator<Item = End>) -> End {
    ends.fold(End::default(), End::and)
}

/// A row for each sort, a column for each name.
fn table(sorts: &[(Sides, usize)], names: &[&str], cell: impl Fn(usize, usize) -> End) {
    print!("{:>4}{:>4}{:>4}", "A", "B", "n");
    names.iter().for_each(|name| print!("{name:>20}"));
    println!();
    for (sort, (sides, n)) in sorts.iter().enumerate() {
        print!("{:>4}{:>4}{n:>4}", sides.clockwise, sides.counter_clockwise);
        (0..names.len()).for_each(|column| print!("{:>20}", cell(sort, column).shown()));
        println!();
    }
}

/// Each start as often as the plan says.
fn run_all(ring: &dyn Ring, plan: &Plan, sides: Sides, n: usize) -> Vec<Ends> {
    in_threads(plan.threads, STARTS.len() * plan.seeds, |number| {
        let case = Case { start: STARTS[number / plan.seeds], n, sides };
        case.run(ring, plan.seed, number % plan.seeds)
    })
}

/// By A, B and nodes: how many pairs of rings become one, as they are and with contacts.
pub fn report_joined(ring: &dyn Ring, plan: &Plan) {
    let runs = 4 * plan.seeds;
    println!("\nOf {runs} times two rings that one link joins, how many are covered after {LIMIT} seconds:");
    println!("as they are, and where each node contacts the next one clockwise");
    print!("{:>4}{:>4}", "A", "B");
    plan.sizes().for_each(|n| print!("{:>8}", format!("n {n}")));
    println!();
    for (a, b) in SIDES {
        print!("{a:>4}{b:>4}");
        for n in plan.sizes() {
            let case = Case { start: Start::Rings(2), n, sides: Sides::from((a, b)) };
            let joined = in_threads(plan.threads, runs, |run| case.joins(ring, plan.seed, run));
            let [alone, helped] = [0, 1].map(|column| joined.iter().filter(|joined| joined[column]).count());
            print!("{:>8}", format!("{alone} {helped}"));
        }
        println!();
    }
}
