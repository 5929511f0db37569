//! `differential [--calls N] [--seed S] [--small] [--only SCENARIO]`: the library against reference/. Exits 1 at the first difference.
use differential::{files, run};
use std::process::ExitCode;

const USAGE: &str = "usage: differential [--calls N] [--seed S] [--small] [--only SCENARIO]";

fn options() -> Option<run::Options> {
    let mut options = run::Options {
        calls: 100_000,
        seed: 1,
        small: false,
        only: None,
    };
    let mut calls = None;
    let mut words = std::env::args().skip(1);
    while let Some(word) = words.next() {
        let mut number = || words.next()?.parse::<u64>().ok();
        match word.as_str() {
            "--calls" => calls = Some(number()?),
            "--seed" => options.seed = number()?,
            "--only" => options.only = Some(number()? as usize),
            "--small" => options.small = true,
            _ => return None,
        }
    }
    options.calls = calls.unwrap_or(if options.small { 3000 } else { 100_000 });
    Some(options)
}

fn main() -> ExitCode {
    let Some(options) = options() else {
        eprintln!("{USAGE}");
        return ExitCode::from(2);
    };
    println!("differential: seed {}", options.seed);
    let tally = match run::run(options) {
        Ok(tally) => tally,
        Err(difference) => {
            println!("difference: {difference}");
            return ExitCode::FAILURE;
        }
    };
    print!("{tally}");
    println!("{} calls, no difference", tally.calls());
    if options.only.is_some() {
        return ExitCode::SUCCESS;
    }
    match files::exchange(options.seed, options.small) {
        Ok(count) => {
            println!("{count} images and erasure lists in files, read by the other implementation")
        }
        Err(text) => {
            println!("difference: {text}");
            return ExitCode::FAILURE;
        }
    }
    let missing = tally.missing(if options.small { 3 } else { 10 });
    for line in &missing {
        println!("not met: {line}");
    }
    if missing.is_empty() {
        ExitCode::SUCCESS
    } else {
        ExitCode::FAILURE
    }
}
