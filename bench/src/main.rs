//! Measures the library beside the independent reader and beside what a user would pick instead: time and instructions.

mod box_cases;
mod byte_loop;
mod case;
mod check_cases;
mod comparison_cases;
mod counting;
mod decimal_cases;
mod int96_cases;
mod integers;
mod julian;
mod linked;
mod measured;
mod native;
mod pair_loop;
mod random;
mod shapes;
mod sheet_cases;
mod table;
mod targets;
mod text_cases;
mod timestamp_cases;
mod timing;

use std::process::ExitCode;
use std::time::Duration;
use std::{env, io};

use case::Case;
use measured::{Cost, Measured};
use timing::Plan;

const USAGE: &str = "usage: bench [--quick] [--no-counts] [WORD]
  --quick      fewer and shorter rounds
  --no-counts  time only, without valgrind
  WORD         only the cases whose entry or input has it";

fn main() -> ExitCode {
    let mut plan = Plan { rounds: 201, turn: Duration::from_micros(400) };
    let mut counted = true;
    let mut between_marks = false;
    let mut word = String::new();
    for argument in env::args().skip(1) {
        match argument.as_str() {
            "--quick" => plan = Plan { rounds: 15, turn: Duration::from_micros(100) },
            "--no-counts" => counted = false,
            counting::WORD => between_marks = true,
            other if !other.starts_with('-') && word.is_empty() => word = argument,
            _ => {
                eprintln!("{USAGE}");
                return ExitCode::from(2);
            }
        }
    }
    // Making the cases compares every contender's answers with the library's.
    let mut cases = cases(&word);
    if between_marks {
        counting::work_between_marks(&mut cases);
        return ExitCode::SUCCESS;
    }
    match measure(cases, &plan, counted, &word) {
        Ok(measured) => {
            table::print(&measured);
            println!();
            targets::print(&measured);
            ExitCode::SUCCESS
        }
        Err(error) => {
            eprintln!("bench: {error}");
            ExitCode::FAILURE
        }
    }
}

fn cases(word: &str) -> Vec<Case<'static>> {
    let mut cases = sheet_cases::cases();
    cases.extend(comparison_cases::cases());
    cases.extend(check_cases::cases());
    cases.extend(timestamp_cases::cases());
    cases.extend(int96_cases::cases());
    cases.extend(box_cases::cases());
    cases.extend(decimal_cases::cases());
    cases.extend(text_cases::cases());
    cases.retain(|case| case.entry.contains(word) || case.input.contains(word));
    cases
}

fn measure<'a>(mut cases: Vec<Case<'a>>, plan: &Plan, counted: bool, word: &str) -> io::Result<Vec<Measured<'a>>> {
    let counts = if counted {
        counting::count(&cases, word)?
    } else {
        cases.iter().map(|case| vec![f64::NAN; case.contenders.len()]).collect()
    };
    let times = timing::time(&mut cases, plan);
    let measured = cases.into_iter().zip(times).zip(counts).map(|((case, times), counts)| {
        let costs = times.into_iter().zip(counts).map(|(times, instructions)| Cost { times, instructions });
        Measured { case, costs: costs.collect() }
    });
    Ok(measured.collect())
}
