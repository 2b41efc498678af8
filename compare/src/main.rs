//! compare [MODE] [NAME=VALUE..]: see README.md.

use compare::agree::{self, Found, Plan};
use compare::ring::Ring;
use compare::script::Mix;
use compare::routes::Made;
use compare::{alike, edges, joins, listener, reaches, self_test, shorts, speed, stage, vectors};
use compare::{every_listener, every_ring, fast_listeners, fast_rings};
use std::path::Path;
use std::process::ExitCode;
use std::time::Instant;

const USAGE: &str = "compare [all | agree | unbroken | self-test | speed | stack | stage | vectors]
    [seed=1] [events=5000000] [damaged=1000000] [routes=EVENTS/10] [reaches=EVENTS/10]
    [previews=EVENTS/10] [screens=EVENTS/10] [joins=EVENTS/25] [shorts=EVENTS/25]
    [listens=EVENTS/5] [nodes=64] [threads=CORES]
    [mixes=gentle,chaos,garbage,replacement,talkative]
    [vectors=FOLDER] [slip=NAME] [seeds=5]";

struct Options {
    mode: String,
    plan: Plan,
    /// Conversions each way between the editions of a ring.
    shorts: u64,
    /// Calls on listener records.
    listens: u64,
    /// The mixes for demand 3.
    steady: Vec<Mix>,
    vectors: Option<String>,
    slip: Option<String>,
    /// Runs of each case of a stage.
    seeds: usize,
}

impl Options {
    fn stage(&self) -> stage::Plan {
        let Plan { seed, nodes, threads, .. } = self.plan;
        stage::Plan { seed, seeds: self.seeds, nodes: nodes.max(stage::SIZES[0]), threads }
    }
}

fn options() -> Option<Options> {
    let threads = std::thread::available_parallelism().map_or(1, |count| count.get() as u64);
    let (events, mixes, steady) = (5_000_000, Mix::ALL.to_vec(), vec![Mix::Gentle, Mix::Replacement]);
    let (damaged, routes, reaches, previews, screens, joins) = (1_000_000, 0, 0, 0, 0, 0);
    let plan = Plan { seed: 1, events, damaged, routes, reaches, previews, screens, joins, mixes, nodes: 64, threads };
    let [mut routes, mut reaches, mut previews, mut screens, mut joins, mut shorts, mut listens] = [None; 7];
    let mode = "all".to_string();
    let mut options = Options { mode, plan, shorts: 0, listens: 0, steady, vectors: None, slip: None, seeds: 5 };
    for word in std::env::args().skip(1) {
        match word.split_once('=') {
            None => options.mode = word,
            Some(("seed", value)) => options.plan.seed = value.parse().ok()?,
            Some(("events", value)) => options.plan.events = value.parse().ok()?,
            Some(("damaged", value)) => options.plan.damaged = value.parse().ok()?,
            Some(("routes", value)) => routes = Some(value.parse().ok()?),
            Some(("reaches", value)) => reaches = Some(value.parse().ok()?),
            Some(("previews", value)) => previews = Some(value.parse().ok()?),
            Some(("screens", value)) => screens = Some(value.parse().ok()?),
            Some(("joins", value)) => joins = Some(value.parse().ok()?),
            Some(("shorts", value)) => shorts = Some(value.parse().ok()?),
            Some(("listens", value)) => listens = Some(value.parse().ok()?),
            Some(("nodes", value)) => options.plan.nodes = value.parse().ok().filter(|n| (1..=64).contains(n))?,
            Some(("threads", value)) => options.plan.threads = value.parse().ok().filter(|&count| count > 0)?,
            Some(("mixes", value)) => {
                options.plan.mixes = value.split(',').map(Mix::named).collect::<Option<_>>()?;
                options.steady = options.plan.mixes.clone();
            }
            Some(("vectors", value)) => options.vectors = Some(value.to_string()),
            Some(("slip", value)) => options.slip = Some(value.to_string()),
            Some(("seeds", value)) => options.seeds = value.parse().ok().filter(|&count| count > 0)?,
            Some(_) => return None,
        }
    }
    options.plan.routes = routes.unwrap_or(options.plan.events / 10);
    options.plan.reaches = reaches.unwrap_or(options.plan.events / 10);
    options.plan.previews = previews.unwrap_or(options.plan.events / 10);
    options.plan.screens = screens.unwrap_or(options.plan.events / 10);
    options.plan.joins = joins.unwrap_or(options.plan.events / 25);
    options.shorts = shorts.unwrap_or(options.plan.events / 25);
    options.listens = listens.unwrap_or(options.plan.events / 5);
    Some(options)
}

fn main() -> ExitCode {
    let Some(options) = options() else {
        eprintln!("{USAGE}");
        return ExitCode::from(2);
    };
    let good = match options.mode.as_str() {
        "agree" => agree_all(&options),
        "unbroken" => unbroken(&options),
        "self-test" => self_test::run(&options.plan, options.slip.as_deref()) == 0,
        "speed" => speed_table(),
        #[cfg(feature = "library")]
        "stack" => {
            compare::stack::report();
            true
        }
        "stage" => {
            stage::report(fast_rings()[0], &options.stage());
            true
        }
        "vectors" => stored(&options),
        "all" => {
            stored(&options) & agree_all(&options) & unbroken(&options) && speed_table()
        }
        _ => {
            eprintln!("{USAGE}");
            false
        }
    };
    if good {
        ExitCode::SUCCESS
    } else {
        ExitCode::FAILURE
    }
}

fn speed_table() -> bool {
    println!("\nSpeed");
    speed::reads(&fast_rings());
    speed::report(&fast_rings());
    speed::lists(fast_rings()[0], &compare::reference::Reference);
    speed::routes(&fast_rings());
    speed::reaches(&fast_rings());
    speed::previews(&fast_rings());
    speed::screens(&fast_rings());
    speed::joins(&fast_rings());
    speed::shorts(&fast_rings());
    speed::listeners(&fast_rings(), &fast_listeners());
    true
}

/// The stored scripts, through every implementation.
fn stored(options: &Options) -> bool {
    let Some(folder) = &options.vectors else { return true };
    println!("\nStored scripts of {folder}");
    let mut good = true;
    for ring in every_ring() {
        match vectors::run(ring, Path::new(folder)) {
            Ok((count, wrong)) => {
                println!("{:>12}: {count} scripts, {} wrong {}", ring.name(), wrong.len(), wrong.join(" "));
                good &= count > 0 && wrong.is_empty();
            }
            Err(error) => {
                println!("{error}");
                return false;
            }
        }
    }
    good
}

/// All implementations in step.
fn agree_all(options: &Options) -> bool {
    let plan = &options.plan;
    let rings = every_ring();
    let names: Vec<&str> = rings.iter().map(|ring| ring.name()).collect();
    println!("\nAgreement of {}", names.join(", "));
    let differences = edges::run(plan.seed, 20_000, &rings);
    println!("20000 openings and calls on buffers of other lengths: {} differences", differences.len());
    differences.iter().take(5).for_each(|difference| println!("  {difference}"));
    let numbers_agree = numbers_agree();
    let start = Instant::now();
    let (tally, found) = agree::run(plan, &rings);
    println!("{tally}\n{:.0} seconds", start.elapsed().as_secs_f64());
    let made = made_rings(plan, &rings) & reached_rings(plan, &rings);
    let made = made & alike_rings(plan, &rings) & joined_rings(plan, &rings) & short_rings(options, &rings);
    made & listeners_agree(options) & differences.is_empty() & numbers_agree & nothing(plan, &rings, found)
}

/// Event words read and written under C's names, where the library is linked.
#[cfg(feature = "library")]
fn numbers_agree() -> bool {
    let (count, differences) = compare::numbers::differences();
    println!("{count} event words read or written: {} differences", differences.len());
    differences.iter().take(5).for_each(|difference| println!("  {difference}"));
    differences.is_empty()
}

#[cfg(not(feature = "library"))]
fn numbers_agree() -> bool {
    true
}

/// Routes on made rings: a tenth of the plan's where every running node holds exactly its leafset of all running nodes, and
/// as many where each holds a few others.
fn made_rings(plan: &Plan, rings: &[&dyn Ring]) -> bool {
    let Made { converged, scattered, found } = Made::run(plan.seed, plan.routes / 10, plan.threads, rings);
    println!("on converged rings, each to the nearest running node: {converged}\non scattered rings: {scattered}");
    println!("{} routes that differ or end elsewhere", found.len());
    found.iter().take(3).for_each(|line| println!("  {line}"));
    found.is_empty()
}

/// As many reaches as the plan's on rings made for them.
fn reached_rings(plan: &Plan, rings: &[&dyn Ring]) -> bool {
    let reaches::Made { tally, found } = reaches::Made::run(plan.seed, plan.reaches, plan.threads, rings);
    println!("on made rings: {tally}\n{} reaches that differ or are wrong by themselves", found.len());
    found.iter().take(3).for_each(|line| println!("  {line}"));
    found.is_empty()
}

/// Pairs of made rings that are alike for the conductor, a tenth as many as the plan's screens.
fn alike_rings(plan: &Plan, rings: &[&dyn Ring]) -> bool {
    let alike::Made { tally, found } = alike::Made::run(plan.seed, plan.screens / 10, plan.threads, rings);
    println!("on made rings: {tally}\n{} pairs that don't show what they have to", found.len());
    found.iter().take(3).for_each(|line| println!("  {line}"));
    found.is_empty()
}

/// Joins of random rings, each accepted one played on.
fn joined_rings(plan: &Plan, rings: &[&dyn Ring]) -> bool {
    let start = Instant::now();
    let joins::Made { tally, found } = joins::Made::run(plan.seed, plan.joins, plan.threads, rings);
    println!("{tally}\n{} joins found wrong, {:.0} seconds", found.len(), start.elapsed().as_secs_f64());
    found.iter().take(1).for_each(|line| println!("{line}"));
    found.is_empty()
}

/// Rings turned short, and short inputs made long.
fn short_rings(options: &Options, rings: &[&dyn Ring]) -> bool {
    let (start, Plan { seed, threads, .. }) = (Instant::now(), &options.plan);
    let shorts::Made { tally, found } = shorts::Made::run(*seed, options.shorts, *threads, rings);
    println!("{tally}\n{} conversions found wrong, {:.0} seconds", found.len(), start.elapsed().as_secs_f64());
    found.iter().take(1).for_each(|line| println!("{line}"));
    found.is_empty()
}

/// Lists of calls on listener records.
fn listeners_agree(options: &Options) -> bool {
    let (start, Plan { seed, threads, .. }) = (Instant::now(), &options.plan);
    let listener::Made { tally, found } = listener::Made::run(*seed, options.listens, *threads, &every_listener());
    println!("on listener records: {tally}");
    println!("{} lists found wrong, {:.0} seconds", found.len(), start.elapsed().as_secs_f64());
    found.iter().take(1).for_each(|text| println!("FOUND by {text}"));
    found.is_empty()
}

/// Demand 3 on the first implementation alone.
fn unbroken(options: &Options) -> bool {
    let rings = &fast_rings()[..1];
    println!("\nUnbroken connection, {}", rings[0].name());
    let mixes = options.steady.clone();
    let plan = Plan { damaged: 0, routes: 0, reaches: 0, previews: 0, screens: 0, joins: 0, mixes, ..options.plan };
    let (tally, found) = agree::run(&plan, rings);
    println!("{tally}");
    nothing(&plan, rings, found)
}

/// True where nothing was found; else the case is shortened and shown.
fn nothing(plan: &Plan, rings: &[&dyn Ring], found: Option<Found>) -> bool {
    let Some(Found { fault, case, script, mix }) = found else { return true };
    println!("FOUND by seed {}, script {script}, {}, after {} steps", plan.seed, mix.name(), case.steps.len());
    println!("{fault}");
    let (short, fault) = case.shortened(rings, &fault);
    println!("shortened to {} steps:\n{short}\n{fault}", short.steps.len());
    false
}
