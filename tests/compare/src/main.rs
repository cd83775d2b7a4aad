//! Compares the linked library with the independent reader.
//!
//! `compare [--seed N] [--rounds N] [--seconds N] [--round N] [--itself]`. It ends with status 1 at the first difference, where
//! fewer than a million comparisons were made, or where a refusal, or anything else that is counted, was met fewer than a thousand times.

use std::process::ExitCode;
use std::time::{Duration, Instant};

use compare::{every, published, reference, rounds, stored, Comparison, Independent, IS_LINKED, NOT_LINKED};

const LEAST_COMPARISONS: u64 = 1_000_000;
const LEAST_OF_EACH: u64 = 1_000;

struct Options {
    seed: u64,
    rounds: u64,
    seconds: u64,
    round: Option<u64>,
    itself: bool,
}

fn options() -> Result<Options, String> {
    let mut options = Options { seed: 1, rounds: 24_000, seconds: 90, round: None, itself: false };
    let mut arguments = std::env::args().skip(1);
    while let Some(argument) = arguments.next() {
        let mut number = || {
            let given = arguments.next().and_then(|number| number.parse().ok());
            given.ok_or_else(|| format!("{argument} takes a number"))
        };
        match argument.as_str() {
            "--seed" => options.seed = number()?,
            "--rounds" => options.rounds = number()?,
            "--seconds" => options.seconds = number()?,
            "--round" => options.round = Some(number()?),
            "--itself" => options.itself = true,
            _ => return Err(format!("{argument}: unknown")),
        }
    }
    Ok(options)
}

fn main() -> ExitCode {
    match options().and_then(|options| run(&options)) {
        Ok(()) => ExitCode::SUCCESS,
        Err(fault) => {
            eprintln!("{fault}");
            ExitCode::FAILURE
        }
    }
}

fn run(options: &Options) -> Result<(), String> {
    if !IS_LINKED && !options.itself {
        return Err(NOT_LINKED.to_string());
    }
    let (left, name) = reference();
    println!("the independent reader beside {name}, seed {}", options.seed);
    for (side, name) in [(left, name), (&Independent, "the independent reader")] {
        let count = published::run(side).map_err(|vector| format!("{name} answers otherwise: {vector}"))?;
        println!("{count} published vectors: as published, by {name}");
    }
    let mut comparison = Comparison::new(left, &Independent);
    stored::compare(&mut comparison, &stored::folder())?;
    println!("every stored question in every edition: {} comparisons, no difference", comparison.tally.comparisons);
    let mut comparison = Comparison::new(left, &Independent);
    every::run(&mut comparison).map_err(|difference| difference.to_string())?;
    println!(
        "every case of codes, precisions, small trees, octets, days and special numbers: {} comparisons, no difference",
        comparison.tally.comparisons
    );
    let mut comparison = Comparison::new(left, &Independent);
    let mut one = |round| {
        let told = |difference| format!("seed {}, round {round}: {difference}", options.seed);
        rounds::run(&mut comparison, options.seed, round).map_err(told)
    };
    if let Some(round) = options.round {
        return one(round);
    }
    let start = Instant::now();
    let end = start + Duration::from_secs(options.seconds);
    let mut round = 0;
    while round < options.rounds && Instant::now() < end {
        one(round)?;
        round += 1;
    }
    let tally = &comparison.tally;
    println!("{tally}");
    println!("{} comparisons in {round} rounds and {} s, no difference", tally.comparisons, start.elapsed().as_secs());
    let mut missing = tally.missing(LEAST_OF_EACH);
    if tally.comparisons < LEAST_COMPARISONS {
        missing.push(format!("{} comparisons, not {LEAST_COMPARISONS}", tally.comparisons));
    }
    if missing.is_empty() {
        Ok(())
    } else {
        Err(missing.join("\n"))
    }
}
