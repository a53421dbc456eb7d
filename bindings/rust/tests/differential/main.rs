//! The library against an independent model of the papers' rules, call by call, and against the paper's replay, history by history.
//!
//! A normal run takes a fixed list of seeds and one fresh seed, which is printed. Two environment variables change it:
//!
//! - `HEKTHUMAR_SEED=number` (decimal, or hexadecimal after `0x`) stands for the fresh seed, to run a difference again;
//! - `HEKTHUMAR_HISTORIES=number` is the number of histories of each seed (5,000 by default), for a longer run.
//!
//! `cargo test --test differential -- --nocapture` prints the coverage, and after how many histories each planted bug was told apart.

mod absences;
mod begin_trials;
mod begins;
mod bytes;
mod calls;
mod coverage;
mod damage;
mod depth_trials;
mod depths;
mod discriminant_trials;
mod discriminants;
mod distances;
mod edition_trials;
mod editions;
mod history;
mod interface;
mod library;
mod lists;
mod model;
mod random;
mod record;
mod record_calls;
mod record_trials;
mod replay;
mod return_trials;
mod returns;
mod tables;
mod takings;
mod top_trials;
mod trials;
mod world;

use std::sync::OnceLock;
use std::time::SystemTime;

use coverage::Coverage;
use history::Plan;
use model::Bug;
use replay::Slip;
use world::Size;

const SEEDS: [u64; 8] = [1, 2, 3, 0x5EED, 0xC0FFEE, 0x1234_5678, 0xFFFF_FFFF_FFFF_FFFF, 0x9E37_79B9];
const HISTORIES: u64 = 5000;

fn variable(name: &str) -> Option<u64> {
    let text = std::env::var(name).ok()?;
    let parsed = match text.strip_prefix("0x") {
        Some(digits) => u64::from_str_radix(digits, 16),
        None => text.parse(),
    };
    Some(parsed.unwrap_or_else(|_| panic!("{name} is no number: {text}")))
}

fn fresh_seed() -> u64 {
    let clock = || SystemTime::now().duration_since(SystemTime::UNIX_EPOCH).map_or(0, |since| since.as_nanos() as u64);
    variable("HEKTHUMAR_SEED").unwrap_or_else(clock)
}

/// So many histories of each seed, in the order in which they are run.
fn plans(seeds: impl IntoIterator<Item = u64>, histories: u64) -> impl Iterator<Item = Plan> {
    seeds.into_iter().flat_map(move |seed| (0..histories).map(move |number| Plan::new(seed, number)))
}

/// The normal run, made once for the tests that ask about it.
fn normal_run() -> &'static Result<Coverage, String> {
    static RUN: OnceLock<Result<Coverage, String>> = OnceLock::new();
    RUN.get_or_init(|| {
        let fresh = fresh_seed();
        println!("HEKTHUMAR_SEED={fresh:#x}");
        let histories = variable("HEKTHUMAR_HISTORIES").unwrap_or(HISTORIES);
        let mut coverage = Coverage::default();
        for plan in plans(SEEDS.into_iter().chain([fresh]), histories) {
            history::run(plan, &mut coverage)?;
        }
        Ok(coverage)
    })
}

#[test]
fn library_equals_model_and_replay() {
    if let Err(difference) = normal_run() {
        panic!("{difference}");
    }
}

#[test]
fn every_refusal_is_reached() {
    let coverage = normal_run().as_ref().expect("the library equals the model");
    coverage.print();
    assert_eq!(coverage.faults(), Vec::<String>::new());
}

/// An account of 2^24 bytes, 1,024 frames, and one frame too many.
#[test]
fn large_worlds() {
    let mut coverage = Coverage::default();
    let sizes = [Size::LongAccount, Size::ManyFrames, Size::LongAccount, Size::ManyFrames, Size::TooManyFrames];
    for (number, size) in sizes.into_iter().cycle().take(3 * sizes.len()).enumerate() {
        let plan = Plan { size, damaged: false, ..Plan::new(SEEDS[0], number as u64) };
        if let Err(difference) = history::run(plan, &mut coverage) {
            panic!("{difference}");
        }
    }
    println!("{} histories, {} calls", coverage.histories, coverage.calls);
}

/// A difference says where it is, so that it can be run again, and what it is.
#[test]
fn a_difference_is_told_in_full() {
    let plan = Plan { bug: Some(Bug::GrownPageNotZeroed), ..Plan::new(SEEDS[0], 0) };
    let text = history::run(plan, &mut Coverage::default()).expect_err("the first history grows a region");
    println!("a planted difference, as a failing test tells it:\n{text}");
    for part in ["seed 0x1, history 0", "call ", "Resize { region: ", "library: Number(0)", "model:   Number(0)", "pool at byte 0x"] {
        assert!(text.contains(part), "{part:?} is missing in {text}");
    }
}

/// After how many histories a planted mistake was told apart; none if it never was.
fn told_apart(mut plans: impl Iterator<Item = Plan>) -> Option<usize> {
    let mut unused = Coverage::default();
    plans.position(|plan| history::run(plan, &mut unused).is_err()).map(|place| place + 1)
}

/// Prints when each mistake was told apart, and fails if one was not.
fn assert_told_apart<T: Copy + std::fmt::Debug>(mistakes: &[T], plant: fn(Plan, T) -> Plan) {
    let mut missed = vec![];
    for &mistake in mistakes {
        match told_apart(plans(SEEDS, HISTORIES).map(|plan| plant(plan, mistake))) {
            Some(histories) => println!("{mistake:?}: told apart in history {histories}"),
            None => missed.push(mistake),
        }
    }
    assert!(missed.is_empty(), "not told apart: {missed:?}");
}

#[test]
fn every_planted_bug_is_told_apart() {
    assert_told_apart(Bug::ALL, |plan, bug| Plan { bug: Some(bug), ..plan });
}

#[test]
fn every_planted_replay_slip_is_told_apart() {
    assert_told_apart(&Slip::ALL, |plan, slip| Plan { slip: Some(slip), ..plan });
}
