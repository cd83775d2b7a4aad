//! Holds the linked library and the independent reader to the answers in `tests/stored`.
//!
//! `stored [--itself] [FOLDER]`. It ends with status 1 at the first line that is answered otherwise, and where no library is linked,
//! unless `--itself` asks for the independent reader alone. FOLDER stands in for `tests/stored`.

use std::path::{Path, PathBuf};
use std::process::ExitCode;

use compare::{reference, stored, Independent, Side, IS_LINKED, NOT_LINKED};

fn main() -> ExitCode {
    let (mut itself, mut folder) = (false, stored::folder());
    for argument in std::env::args().skip(1) {
        if argument == "--itself" {
            itself = true;
        } else {
            folder = PathBuf::from(argument);
        }
    }
    let done = if IS_LINKED || itself { run(&folder) } else { Err(NOT_LINKED.to_string()) };
    match done {
        Ok(()) => ExitCode::SUCCESS,
        Err(fault) => {
            eprintln!("{fault}");
            ExitCode::FAILURE
        }
    }
}

fn run(folder: &Path) -> Result<(), String> {
    let mut sides: Vec<(&dyn Side, &str)> = vec![(&Independent, "the independent reader")];
    if IS_LINKED {
        sides.insert(0, reference());
    }
    for (side, name) in sides {
        for stored in &stored::ALL {
            let count = stored.check(side, folder).map_err(|difference| format!("{name}: {difference}"))?;
            println!("{}: {count} answers, as stored, by {name}", stored.name);
        }
    }
    Ok(())
}
