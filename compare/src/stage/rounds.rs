//! Tables of the seconds until every node holds exactly its leafset.

use super::settling::{median_and_most, run_all, Case, Settling};
use super::simulated::{Conditions, Firing, Refused, MILLISECOND};
use super::starts::Start;
use super::{Plan, LEAVES};
use crate::ring::Ring;

/// By start, A = B, nodes, delay and loss.
pub fn report(ring: &dyn Ring, plan: &Plan) {
    for (delay, lost) in [(10, 0), (10, 10), (10, 30), (250, 0), (250, 10)] {
        println!("\nSeconds until each node holds at least / exactly its leafset, median and most of");
        println!("{} runs; mean delay {delay} ms, {lost} % lost", plan.seeds);
        print!("{:<12}{:>4}", "start", "A=B");
        plan.sizes().for_each(|n| print!("{:>24}", format!("n {n}")));
        println!();
        table(ring, plan, Conditions { mean_delay: delay * MILLISECOND, lost, ..Conditions::GOOD });
    }
}

fn table(ring: &dyn Ring, plan: &Plan, conditions: Conditions) {
    let rows = Start::UNSETTLED.into_iter().flat_map(|start| LEAVES.map(|leaves| (start, leaves)));
    let row = |(start, leaves)| plan.sizes().map(move |n| Case::new(start, n, leaves, conditions));
    let cases: Vec<Case> = rows.flat_map(row).collect();
    let outcomes = run_all(ring, plan, &cases);
    let columns = plan.sizes().count();
    for (cases, outcomes) in cases.chunks(columns).zip(outcomes.chunks(columns)) {
        print!("{:<12}{:>4}", cases[0].start.name(), cases[0].leaves);
        for (case, runs) in cases.iter().zip(outcomes) {
            print!("{:>24}", both(runs, case.limit));
        }
        println!();
    }
}

fn both(runs: &[Settling], limit: usize) -> String {
    let covered = median_and_most(runs.iter().map(|run| run.covered), limit);
    let exact = median_and_most(runs.iter().map(|run| run.exact), limit);
    format!("{covered} / {exact}")
}

/// By start, A = B and loss, where each node has contacted the next one.
pub fn report_contacted(ring: &dyn Ring, plan: &Plan) {
    println!("\nThe same where each node has contacted the next one clockwise; {} nodes, mean delay 10 ms", plan.nodes);
    let columns = [(1, 0), (1, 30), (8, 0), (8, 30)];
    print!("{:<12}", "start");
    columns.iter().for_each(|(leaves, lost)| print!("{:>24}", format!("A=B {leaves}, {lost} % lost")));
    println!();
    for start in Start::UNSETTLED {
        let cases = columns.map(|(leaves, lost)| {
            let case = Case::new(start, plan.nodes, leaves, Conditions { lost, ..Conditions::GOOD });
            Case { next_contacted: true, ..case }
        });
        print!("{:<12}", start.name());
        for (case, runs) in cases.iter().zip(run_all(ring, plan, &cases)) {
            print!("{:>24}", both(&runs, case.limit));
        }
        println!();
    }
}

/// By nodes, how timers fire together, and whether refused ones are tried again.
pub fn report_together(ring: &dyn Ring, plan: &Plan) {
    println!("\nSeconds until each node holds exactly its leafset, median and most of {} runs", 3 * plan.seeds);
    println!("from a tree, a star and two rings; A = B = 8, mean delay 10 ms");
    let columns = [
        ("spread, dropped", Firing::Spread, Refused::Dropped),
        ("by kind, dropped", Firing::ByKind, Refused::Dropped),
        ("at once, dropped", Firing::AtOnce, Refused::Dropped),
        ("at once, tried again", Firing::AtOnce, Refused::TriedAgain),
    ];
    print!("{:>4}", "n");
    columns.iter().for_each(|(name, ..)| print!("{name:>22}"));
    println!();
    for n in (24..=plan.nodes).step_by(8) {
        print!("{n:>4}");
        for (_, firing, refused) in columns {
            print!("{:>22}", together(ring, plan, n, Conditions { firing, refused, ..Conditions::GOOD }));
        }
        println!();
    }
}

fn together(ring: &dyn Ring, plan: &Plan, n: usize, conditions: Conditions) -> String {
    let limit = 100;
    let starts = [Start::Tree, Start::Star, Start::Rings(2)];
    let cases = starts.map(|start| Case { limit, ..Case::new(start, n, 8, conditions) });
    median_and_most(run_all(ring, plan, &cases).iter().flatten().map(|run| run.exact), limit)
}
