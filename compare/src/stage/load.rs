//! What a stage asks of the ring at its usual rate: events a second, messages in flight, steps of the clocks.

use super::simulated::{Conditions, Stage, Tally, CLOCK_SPENT, MILLISECOND, POOL_FULL, SENDER_FULL};
use super::starts::Start;
use super::{in_threads, Plan, LEAVES};
use crate::events::{off, on};
use crate::look;
use crate::random::Random;
use crate::ring::{Ring, Sides};
use std::time::Instant;

const MINUTE: usize = 60;

/// The mean delays that are tried: so many, one step apart.
const DELAYS: u64 = 500;
const DELAY_STEP: u64 = 10 * MILLISECOND;

const CLOCK_LIMIT: u32 = 16_777_215;

/// How many steps of a clock are played, the last ones.
const CLOCK_STEPS: u32 = 10_000;

struct Load<'a> {
    ring: &'a dyn Ring,
    seed: u64,
    n: usize,
    leaves: u32,
}

impl<'a> Load<'a> {
    fn stage(&self, start: Start, conditions: Conditions) -> Stage<'a> {
        let mut random = Random::new(self.seed, self.n as u64 * 64 + self.leaves as u64);
        let words = start.words(self.ring, &mut random, self.n, Sides::from(self.leaves));
        Stage::new(self.ring, random, words, conditions)
    }

    /// A minute of a settled stage that has run for another, and the events played in a second of real time.
    fn minute(&self) -> (Tally, f64) {
        let conditions = Conditions { mean_delay: 100 * MILLISECOND, ..Conditions::GOOD };
        let mut stage = self.stage(Start::Settled, conditions);
        (0..MINUTE).for_each(|_| stage.second());
        stage.tally = Tally::default();
        let start = Instant::now();
        (0..MINUTE).for_each(|_| stage.second());
        let played = stage.tally.answers[0] as f64 / start.elapsed().as_secs_f64();
        (stage.tally, played)
    }

    /// Whether no timer is refused within a minute.
    fn bears(&self, start: Start, mean_delay: u64) -> bool {
        let mut stage = self.stage(start, Conditions { mean_delay, ..Conditions::GOOD });
        (0..MINUTE).all(|_| {
            stage.second();
            stage.tally.answers[POOL_FULL] + stage.tally.answers[SENDER_FULL] == 0
        })
    }

    /// What came of the first minute.
    fn first_minute(&self, start: Start, mean_delay: u64) -> Tally {
        let mut stage = self.stage(start, Conditions { mean_delay, ..Conditions::GOOD });
        (0..MINUTE).for_each(|_| stage.second());
        stage.tally
    }

    /// The least mean delay that it does not bear, in milliseconds, by halving.
    fn overflow(&self, start: Start) -> String {
        let delays: Vec<u64> = (1..=DELAYS).map(|step| step * DELAY_STEP).collect();
        match delays.get(delays.partition_point(|&delay| self.bears(start, delay))) {
            Some(delay) => format!("{}", delay / MILLISECOND),
            None => format!(">{}", DELAYS * DELAY_STEP / MILLISECOND),
        }
    }

    /// Seconds until a clock that stands just below its limit is spent, and the answers to off and on at its node then.
    fn spend(&self) -> (usize, [u32; 2]) {
        let mut stage = self.stage(Start::Settled, Conditions::GOOD);
        for x in 0..self.n {
            stage.words[2 + 2 * x] = 5 << 28 | (CLOCK_LIMIT - CLOCK_STEPS);
        }
        let mut seconds = 0;
        while stage.tally.answers[CLOCK_SPENT] == 0 {
            stage.second();
            seconds += 1;
        }
        let spent = (0..self.n).find(|&x| look::clock(&stage.words, x) == CLOCK_LIMIT).unwrap() as u32;
        (seconds, [off(spent), on(spent)].map(|word| self.ring.play(&mut stage.words, word)))
    }
}

/// By nodes and A = B: events, messages in flight, and the delay that is too long.
pub fn report(ring: &dyn Ring, plan: &Plan) {
    println!("\nEvents a second of a settled stage; mean and most in flight in a minute at a mean delay of 100 ms;");
    println!("mean delay in ms from which a timer is refused with 11 within a minute, settled and from a tree;");
    println!("events that were played in a second on one core, simulation included");
    println!("   n A=B    events    mean    most   settled      tree    played");
    for n in plan.sizes() {
        for leaves in LEAVES {
            let load = Load { ring, seed: plan.seed, n, leaves };
            let starts = [Start::Settled, Start::Tree];
            let overflows = in_threads(plan.threads, starts.len(), |place| load.overflow(starts[place]));
            let (tally, played) = load.minute();
            let events = tally.answers[0] as f64 / MINUTE as f64;
            print!("{n:>4}{leaves:>4}{events:>10.0}{:>8.0}{:>8}", tally.mean(), tally.most);
            println!("{:>10}{:>10}{played:>10.0}", overflows[0], overflows[1]);
        }
    }
}

/// By A = B, start and mean delay: the most messages of one node, and of all, in flight in the first minute, and what
/// was refused with 17 and 11.
pub fn report_senders(ring: &dyn Ring, plan: &Plan) {
    let Plan { seeds, nodes, .. } = plan;
    println!("\nThe first minute of {nodes} nodes, {seeds} runs of each: most of one node and of all in flight;");
    println!("how often an event was refused with 17, and with 11");
    println!(" A=B delay  start        one     all        17        11");
    let starts = || Start::UNSETTLED.into_iter().chain([Start::Settled]);
    let delays = [10, 100, 250];
    for (leaves, delay) in LEAVES.into_iter().flat_map(|leaves| delays.map(|delay| (leaves, delay))) {
        for start in starts() {
            let tallies = in_threads(plan.threads, plan.seeds, |run| {
                let load = Load { ring, seed: plan.seed + run as u64, n: plan.nodes, leaves };
                load.first_minute(start, delay * MILLISECOND)
            });
            let most = |of: fn(&Tally) -> usize| tallies.iter().map(of).max().unwrap();
            let refused = |answer: usize| tallies.iter().map(|tally| tally.answers[answer]).sum::<u64>();
            print!("{leaves:>4}{delay:>6}  {:<12}{:>4}", start.name(), most(|tally| tally.most_of_node));
            println!("{:>8}{:>10}{:>10}", most(|tally| tally.most), refused(SENDER_FULL), refused(POOL_FULL));
        }
    }
}

/// By A = B: the last steps of the clocks, and from them the hours of a whole clock.
pub fn report_clocks(ring: &dyn Ring, plan: &Plan) {
    println!("\nA settled stage of {} nodes, clocks {CLOCK_STEPS} below their limit:", plan.nodes);
    println!("seconds to the first refusal 10, from that steps a second, and hours and days of a whole clock;");
    println!("the answers to off and on at a node whose clock is spent");
    println!(" A=B   seconds     steps     hours      days     off      on");
    for leaves in LEAVES {
        let (seconds, [off, on]) = Load { ring, seed: plan.seed, n: plan.nodes, leaves }.spend();
        let steps = CLOCK_STEPS as f64 / seconds as f64;
        let hours = CLOCK_LIMIT as f64 / steps / 3_600.0;
        println!("{leaves:>4}{seconds:>10}{steps:>10.1}{hours:>10.0}{:>10.1}{off:>8}{on:>8}", hours / 24.0);
    }
}
