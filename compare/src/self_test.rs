//! The harness has to be able to fail: every wrong program ([`Slip`]) must be found, and its case shortened.

use crate::agree::{self, Found, Plan};
use crate::alike;
use crate::joins;
use crate::listener::{self, Listener};
use crate::plain::listener::{Plain as PlainListener, Slip as ListenerSlip};
use crate::plain::{Plain, Slip};
use crate::reaches;
use crate::reference::Reference;
use crate::ring::Ring;
use crate::routes::Made;
use crate::script::Mix;
use crate::shorts;

/// Wrong programs that part nodes: found by demand 3 alone, without another implementation.
const PARTING: [Slip; 2] = [Slip::ReleaseAtTimer3, Slip::ReleaseWithoutHold];

/// Wrong programs whose previews mislead: found by the ring, or by the event after one, without another implementation.
const MISLEADING: [Slip; 2] = [Slip::PreviewPlays, Slip::PreviewUnplayed];

/// Wrong programs that leave a sender with more messages than it may have: found by that, without another
/// implementation.
const TALKING: [Slip; 4] = [Slip::Sender257, Slip::SenderNeverFull, Slip::SenderOneFits, Slip::SenderLeaves];

/// Wrong programs whose routes end elsewhere: found on converged rings alone, without another implementation.
const ASTRAY: [Slip; 2] = [Slip::RouteTieOther, Slip::RouteDistanceOnly];

/// Wrong programs whose reaches end elsewhere than at the owner, or after too many hops: found on made rings, likewise.
const STRAYING: [Slip; 3] = [Slip::ReachMeetsOff, Slip::ReachOwnerAfter, Slip::ReachNearest];

/// Wrong programs whose reaches differ on rings that few scripts lead to.
const ON_MADE_RINGS: [Slip; 2] = [Slip::ReachSpanMiddle, Slip::ReachSpanLast];

/// Wrong programs whose conductor sees too much: found by rings alike for the conductor alone.
const TELLING: [Slip; 2] = [Slip::ScreenClock, Slip::ScreenCandidates];

/// Wrong programs whose conversions write where they may not, or lead elsewhere there and back: found without another
/// implementation.
const NOT_BACK: [Slip; 12] = [
    Slip::ShortOwnPair,
    Slip::ShortMessageLess,
    Slip::ShortPlaceLess,
    Slip::ShortBeyond,
    Slip::ShortRefusedWrites,
    Slip::ShortRefusedLength,
    Slip::ShortNoNodes,
    Slip::ShortMessage1025,
    Slip::ShortOneLonger,
    Slip::ShortSender257,
    Slip::ShortOldKept,
    Slip::ShortWritesFirst,
];

/// Wrong listeners that the note's claims alone find, without another implementation.
const UNLIKE_CLAIMS: [ListenerSlip; 12] = [
    ListenerSlip::Window3,
    ListenerSlip::Window5,
    ListenerSlip::NoticeLate,
    ListenerSlip::NoticeAgain,
    ListenerSlip::GrowsAlways,
    ListenerSlip::GrowsEarly,
    ListenerSlip::FallsBack,
    ListenerSlip::HearKeeps,
    ListenerSlip::HearWatches,
    ListenerSlip::AgainSilence,
    ListenerSlip::AgainWindow,
    ListenerSlip::Wraps,
];

/// How many wrong programs were not found. Where one is named, only that, and its case is shown.
pub fn run(plan: &Plan, only: Option<&str>) -> usize {
    let wanted = |slip: &Slip| only.is_none_or(|only| only == format!("{slip:?}"));
    let mixes = Mix::ALL.to_vec();
    let (events, each) = (3_000_000, 300_000);
    let (damaged, routes, reaches, previews, screens, joins) = (each, each, each, each, each, 0);
    let agreement = Plan { events, damaged, routes, reaches, previews, screens, joins, mixes, ..*plan };
    let (mixes, nodes, events) = (vec![Mix::Replacement], 10, 10_000_000);
    let (damaged, routes, reaches, previews, screens) = (0, 0, 0, 0, 0);
    let demand_3 = Plan { events, damaged, routes, reaches, previews, screens, joins, mixes, nodes, ..*plan };
    let by_join = Slip::ALL.into_iter().filter(|slip| slip.of_join()).filter(wanted);
    let by_join = by_join.filter(|&slip| !joins_wrongly(plan, slip, only.is_some()));
    let by_reach = Slip::ALL.into_iter().filter(|slip| slip.of_reach()).filter(wanted);
    let by_reach = by_reach.filter(|&slip| !reaches_wrongly(plan, slip, &[&Reference, &Plain { slip: Some(slip) }]));
    let by_script = |slip: &Slip| !slip.of_join() && !slip.of_short() && !ON_MADE_RINGS.contains(slip);
    let by_difference = Slip::ALL.into_iter().filter(by_script).filter(wanted).filter(|&slip| {
        let wrong = Plain { slip: Some(slip) };
        !finds(&agreement, &[&Reference, &wrong], slip, "difference", only.is_some())
    });
    let alone = |plan: &Plan, slips: &[Slip], way: &str| {
        let slips = slips.iter().copied().filter(wanted);
        slips.filter(|&slip| !finds(plan, &[&Plain { slip: Some(slip) }], slip, way, only.is_some())).count()
    };
    let by_end = ASTRAY.into_iter().filter(wanted).filter(|&slip| !goes_astray(plan, slip));
    let by_owner = STRAYING.into_iter().filter(wanted);
    let by_owner = by_owner.filter(|&slip| !reaches_wrongly(plan, slip, &[&Plain { slip: Some(slip) }]));
    let by_pair = TELLING.into_iter().filter(wanted).filter(|&slip| !tells(plan, slip));
    let by_difference = by_join.count() + by_reach.count() + by_difference.count();
    let by_themselves = alone(&demand_3, &PARTING, "demand 3")
        + alone(&agreement, &MISLEADING, "preview")
        + alone(&agreement, &TALKING, "bound");
    let of_rings = by_difference + by_themselves + by_end.count() + by_owner.count() + by_pair.count();
    of_rings + unfound_conversions(plan, only) + unfound_listeners(plan, only)
}

/// How many wrong conversions were not found, beside another implementation or by themselves.
fn unfound_conversions(plan: &Plan, only: Option<&str>) -> usize {
    let wanted = |slip: &Slip| only.is_none_or(|only| only == format!("{slip:?}"));
    let unfound = |slip: Slip, way: &str, right: &[&dyn Ring]| {
        let wrong = Plain { slip: Some(slip) };
        let rings: Vec<&dyn Ring> = right.iter().copied().chain([&wrong as &dyn Ring]).collect();
        let made = shorts::Made::run(plan.seed, 20_000, plan.threads, &rings);
        let name = format!("{slip:?}");
        let found = made.found.first().map_or("NOT FOUND in 20000 conversions", |found| found);
        let head = found.lines().next().unwrap_or_default();
        println!("{name:<20} {way:<11} {}", if only.is_some() { found } else { head });
        made.found.is_empty()
    };
    let beside = Slip::ALL.into_iter().filter(|slip| slip.of_short()).filter(wanted);
    let alone = NOT_BACK.into_iter().filter(wanted);
    beside.filter(|&slip| unfound(slip, "short", &[&Reference])).count()
        + alone.filter(|&slip| unfound(slip, "and back", &[])).count()
}

/// How many wrong listeners were not found, beside another implementation or by the claims.
fn unfound_listeners(plan: &Plan, only: Option<&str>) -> usize {
    let wanted = |slip: &ListenerSlip| only.is_none_or(|only| only == format!("{slip:?}"));
    let unfound = |slip: ListenerSlip, way: &str, right: &[&dyn Listener]| {
        let wrong = PlainListener { slip: Some(slip) };
        let listeners: Vec<&dyn Listener> = right.iter().copied().chain([&wrong as &dyn Listener]).collect();
        let made = listener::Made::run(plan.seed, 1_000_000, plan.threads, &listeners);
        let name = format!("{slip:?}");
        let found = made.found.first().map_or("NOT FOUND in 1000000 calls", |found| found);
        let head = found.lines().next().unwrap_or_default();
        println!("{name:<20} {way:<11} {}", if only.is_some() { found } else { head });
        made.found.is_empty()
    };
    let beside = ListenerSlip::ALL.into_iter().filter(wanted);
    let alone = UNLIKE_CLAIMS.into_iter().filter(wanted);
    beside.filter(|&slip| unfound(slip, "listener", &[&Reference])).count()
        + alone.filter(|&slip| unfound(slip, "claims", &[])).count()
}

fn joins_wrongly(plan: &Plan, slip: Slip, show: bool) -> bool {
    let made = joins::Made::run(plan.seed, 20_000, plan.threads, &[&Reference, &Plain { slip: Some(slip) }]);
    let Some(found) = made.found.first() else {
        println!("{slip:?} join NOT FOUND in 20000 joins");
        return false;
    };
    let name = format!("{slip:?}");
    println!("{name:<20} {:<11} {}", "join", found.lines().next().unwrap_or_default());
    if show {
        println!("{found}");
    }
    true
}

/// Beside another implementation, or alone.
fn reaches_wrongly(plan: &Plan, slip: Slip, rings: &[&dyn Ring]) -> bool {
    let made = reaches::Made::run(plan.seed, 20_000, plan.threads, rings);
    let (name, way) = (format!("{slip:?}"), if rings.len() > 1 { "reach" } else { "owner" });
    let first = made.found.first().and_then(|found| found.lines().next()).unwrap_or("NOT FOUND");
    println!("{name:<20} {way:<11} {} of 20000 reaches on made rings: {first}", made.found.len());
    !made.found.is_empty()
}

fn tells(plan: &Plan, slip: Slip) -> bool {
    let made = alike::Made::run(plan.seed, 2_000, plan.threads, &[&Plain { slip: Some(slip) }]);
    let name = format!("{slip:?}");
    println!("{name:<20} {:<11} {} of 2000 pairs of rings show otherwise", "alike", made.found.len());
    !made.found.is_empty()
}

fn goes_astray(plan: &Plan, slip: Slip) -> bool {
    let made = Made::run(plan.seed, 20_000, plan.threads, &[&Plain { slip: Some(slip) }]);
    let name = format!("{slip:?}");
    println!("{name:<20} {:<11} {} of 20000 routes on converged rings end elsewhere", "nearest", made.found.len());
    !made.found.is_empty()
}

fn finds(plan: &Plan, rings: &[&dyn Ring], slip: Slip, way: &str, show: bool) -> bool {
    let (tally, found) = agree::run(plan, rings);
    let name = format!("{slip:?}");
    let Some(Found { fault, case, mix, .. }) = found else {
        println!("{name:<20} {way:<11} NOT FOUND in {} events, {} damaged buffers", tally.events, tally.damaged);
        return false;
    };
    let (short, fault) = case.shortened(rings, &fault);
    println!(
        "{name:<20} {way:<11} {} after {} events and {} damaged buffers; shortened from {} steps to {}",
        mix.name(),
        tally.events,
        tally.damaged,
        case.steps.len(),
        short.steps.len()
    );
    if show {
        println!("{fault}\n{short}");
    }
    true
}
