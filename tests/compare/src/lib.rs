//! Two readers run side by side on the same inputs: the linked library through its C interface, and the independent one.
#![deny(unsafe_code)]

pub mod boxes;
pub mod changes;
pub mod columns;
pub mod comparison;
pub mod editions;
pub mod every;
pub mod instants;
pub mod int96;
pub mod lent;
#[cfg(linked)]
pub mod linked;
pub mod lists;
pub mod near;
pub mod published;
pub mod random;
pub mod rounds;
pub mod sheets;
pub mod side;
pub mod stored;
pub mod trees;

use std::process::ExitCode;

pub use comparison::{Comparison, Difference};
pub use side::Side;

side!(pub Independent, independent);

/// The side that the independent reader is held against, and its name: the linked library, or without one the independent
/// reader itself.
pub fn reference() -> (&'static dyn Side, &'static str) {
    #[cfg(linked)]
    return (&linked::Linked, "the linked library");
    #[cfg(not(linked))]
    return (&Independent, "itself as it is");
}

/// Compares each of some wrong versions of the independent reader with the reference, and tells how each was found;
/// fails where one shows no difference within so many rounds, or where the reader as it is, or a version that is free
/// to be another, shows one in the rounds that were needed or in what is stored.
pub fn hunt(wrong: &[(&str, &dyn Side)], free: &[(&str, &dyn Side)], most_rounds: u64) -> ExitCode {
    const SEED: u64 = 1;
    let (reference, name) = reference();
    println!("wrong versions of the independent reader beside {name}, seed {SEED}");
    let first_difference = |side: &dyn Side, rounds: u64| {
        let mut comparison = Comparison::new(reference, side);
        (0..rounds).find_map(|round| Some((round, rounds::run(&mut comparison, SEED, round).err()?.in_short())))
    };
    let (mut missed, mut needed) = (0, 0);
    for (title, side) in wrong {
        match first_difference(*side, most_rounds) {
            Some((round, difference)) => {
                needed = needed.max(round + 1);
                println!("{title}: round {round}, {difference}");
            }
            None => {
                missed += 1;
                println!("{title}: NOT FOUND");
            }
        }
    }
    let mut differing = 0;
    for &(title, side) in [("the reader as it is", &Independent as &dyn Side)].iter().chain(free) {
        let of_round = first_difference(side, needed).map(|(round, difference)| format!("round {round}, {difference}"));
        let of_stored = || stored::ALL.iter().find_map(|stored| stored.check(side, &stored::folder()).err());
        match of_round.or_else(of_stored) {
            Some(difference) => {
                differing += 1;
                println!("{title}: DIFFERS: {difference}");
            }
            None => println!("{title}: no difference in {needed} rounds and in what is stored"),
        }
    }
    println!("{} wrong versions, {missed} not found", wrong.len());
    if missed == 0 && differing == 0 {
        ExitCode::SUCCESS
    } else {
        ExitCode::FAILURE
    }
}

/// Whether the library is linked.
pub const IS_LINKED: bool = cfg!(linked);

/// What is said where it is not.
pub const NOT_LINKED: &str =
    "no library is linked: set GRIFFELJOL_LIB to the folder of libgriffeljol.a, or give --itself";
