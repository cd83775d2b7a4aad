//! Shows that the comparisons find what is wrong: wrong versions of the independent reader and changed copies of the stored files, each of which
//! must be found; and versions that are not wrong, which must not be.
//!
//! The versions, which `build.rs` writes, are compared with the linked library (or the reader itself, where none is linked). It ends with
//! status 1 where something is not found.

use std::process::ExitCode;

use compare::{reference, stored};

#[allow(warnings)]
mod versions {
    include!(concat!(env!("OUT_DIR"), "/versions.rs"));
}

/// How many rounds a wrong version may last before it is found; a comparison runs many times as many.
const ROUNDS: u64 = 5_000;

fn main() -> ExitCode {
    match stored::find_changes(reference().0, &stored::folder()) {
        Ok(count) => println!("{count} changed bytes of stored files: each found"),
        Err(fault) => {
            eprintln!("{fault}");
            return ExitCode::FAILURE;
        }
    }
    compare::hunt(versions::ALL, versions::FREE, ROUNDS)
}
