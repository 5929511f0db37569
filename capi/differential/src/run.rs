//! Which scenarios are run, on all cores, and in which order their results count.
use crate::scenarios::{Kind, Scenario};
use crate::session::{Difference, Run, Settings};
use crate::tally::Tally;
use random::Random;
use std::panic::{catch_unwind, AssertUnwindSafe};
use std::sync::atomic::{AtomicUsize, Ordering};
use std::sync::Mutex;
use std::thread;

#[derive(Clone, Copy)]
pub struct Options {
    /// At least so many calls are made.
    pub calls: u64,
    pub seed: u64,
    /// Small sizes only, on one core, with buffers that have no guards: for a run that checks each access to memory.
    pub small: bool,
    /// Only this scenario.
    pub only: Option<usize>,
}

/// Scenarios are drawn so many at a time.
const BATCH: usize = 64;

/// The scenarios that every run has: each k, the slowest first.
fn fixed(small: bool) -> Vec<Scenario> {
    let scenario = |kind, k, s| Scenario { kind, k, s };
    let mut list = Vec::new();
    if small {
        list.push(scenario(Kind::Alone, 10, 128));
        list.push(scenario(Kind::Alone, 10, 1));
        list.push(scenario(Kind::Alone, 6, 3));
        list.push(scenario(Kind::Strikes, 2, 16));
    } else {
        list.push(scenario(Kind::Losses, 10, 3));
        list.push(scenario(Kind::Rounds, 10, 128));
        list.push(scenario(Kind::Rounds, 10, 1));
        list.push(scenario(Kind::Losses, 9, 128));
        list.push(scenario(Kind::Strikes, 10, 128));
        list.push(scenario(Kind::Strikes, 7, 16));
        list.push(scenario(Kind::Strikes, 5, 128));
    }
    let most = if small { 3 } else { 10 };
    for k in (1..=most).rev() {
        for kind in [
            Kind::Losses,
            Kind::TakingBack,
            Kind::TwoReadings,
            Kind::Strikes,
            Kind::Refusals,
            Kind::Rounds,
            Kind::Blocks,
        ] {
            let slow = k == 10 && kind == Kind::Losses || k > 8 && kind == Kind::Blocks;
            if !slow {
                list.push(scenario(kind, k, 1 + (k + kind as u32) % 4));
            }
        }
    }
    list
}

/// A scenario at random: large k are rare.
fn drawn(random: &mut Random, small: bool) -> Scenario {
    let k = match random.below(if small { 900 } else { 1000 }) {
        0..180 => 1,
        180..400 => 2,
        400..650 => 3,
        650..900 => 4,
        900..965 => 5,
        965..985 => 6,
        985..995 => 7,
        _ => 8,
    };
    let s = match random.below(20) {
        0..14 => 1 + random.below(4),
        14..19 => 1 + random.below(16),
        _ if k <= 4 => 1 + random.below(128),
        _ => 1,
    };
    let kind = match random.below(15) {
        0..6 => Kind::History,
        6 | 7 => Kind::Foreign,
        8 | 9 => Kind::Blocks,
        10 | 11 => Kind::TwoReadings,
        12 => Kind::Strikes,
        _ => Kind::TakingBack,
    };
    Scenario {
        kind,
        k,
        s: s as u32,
    }
}

/// The batch of scenarios with that number.
fn batch(options: Options, number: usize) -> Vec<Scenario> {
    if number == 0 {
        return fixed(options.small);
    }
    let mut random = Random::new(options.seed ^ (number as u64) << 32);
    (0..BATCH)
        .map(|_| drawn(&mut random, options.small))
        .collect()
}

/// The seed of a scenario.
fn seed_of(options: Options, index: usize) -> u64 {
    options.seed.wrapping_mul(0x2545_f491_4f6c_dd1d) ^ index as u64
}

fn run_one(options: Options, scenario: Scenario, index: usize, shown: Option<u64>) -> Run<Tally> {
    let settings = Settings {
        guard: if options.small { 0 } else { 3 },
        shown,
    };
    let seed = seed_of(options, index);
    let panicked = |_| {
        Err(Difference {
            calls: 0,
            text: "a panic, as printed above\n".to_string(),
        })
    };
    catch_unwind(AssertUnwindSafe(|| scenario.run(seed, settings))).unwrap_or_else(panicked)
}

/// Runs scenarios, whose numbers begin with `first`, on all cores; in order.
fn run_batch(options: Options, scenarios: &[Scenario], first: usize) -> Vec<Run<Tally>> {
    let next = AtomicUsize::new(0);
    let results = Mutex::new(Vec::new());
    let work = || loop {
        let i = next.fetch_add(1, Ordering::Relaxed);
        let Some(&scenario) = scenarios.get(i) else {
            return;
        };
        let result = run_one(options, scenario, first + i, None);
        results.lock().expect("no panic").push((i, result));
    };
    let cores = thread::available_parallelism().map_or(1, usize::from);
    let workers = if options.small { 1 } else { cores };
    thread::scope(|scope| {
        for _ in 0..workers {
            scope.spawn(work);
        }
    });
    let mut results = results.into_inner().expect("no panic");
    results.sort_by_key(|result| result.0);
    results.into_iter().map(|result| result.1).collect()
}

/// Runs until enough calls were made. Prints the inputs of the first call that differs, and gives what differed.
pub fn run(options: Options) -> Result<Tally, String> {
    let mut tally = Tally::default();
    let mut first = 0;
    for number in 0.. {
        let scenarios = batch(options, number);
        let end = first + scenarios.len();
        if let Some(only) = options.only {
            if (first..end).contains(&only) {
                let scenario = scenarios[only - first];
                return run_one(options, scenario, only, None)
                    .map_err(|difference| report(options, scenario, only, &difference));
            }
        } else {
            for (i, result) in run_batch(options, &scenarios, first).iter().enumerate() {
                match result {
                    Ok(counted) => tally.add(counted),
                    Err(difference) => {
                        return Err(report(options, scenarios[i], first + i, difference))
                    }
                }
            }
            if tally.calls() >= options.calls {
                break;
            }
        }
        first = end;
    }
    Ok(tally)
}

/// Runs a scenario again, up to the call that differs, to print its inputs.
fn report(options: Options, scenario: Scenario, index: usize, difference: &Difference) -> String {
    let _ = run_one(options, scenario, index, Some(difference.calls));
    let (calls, text) = (difference.calls, &difference.text);
    let seed = options.seed;
    let small = if options.small { " --small" } else { "" };
    format!("scenario {index}, {scenario:?}, after {calls} calls: {text}  again: --seed {seed}{small} --only {index}")
}
