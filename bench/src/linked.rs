//! The proved library, through the C interface of `include/griffeljol.h` as the wrapper declares it.

#[path = "../../wrapper/src/boundary.rs"]
mod boundary;

pub use boundary::{box_of, compare, decode, encode, from_int96, inside, order, read, resolve, rewrite, to_int96};

/// The edition that is measured.
pub const EDITION: u32 = independent::edition::FIRST;

/// A column type: physical, type length, kind, p1, p2.
pub type ColumnType = [u32; 5];

/// The answer of a refusal's number and place, or with number 0 of a result's value.
pub fn answer(number: u32, low: u32) -> u64 {
    u64::from(number) << 32 | u64::from(low)
}

/// The answer that the library would give for a result of the independent reader.
pub fn answer_of(result: Result<u32, independent::Refusal>) -> u64 {
    match result {
        Ok(value) => answer(0, value),
        Err(refusal) => answer(refusal.number, refusal.place),
    }
}

/// The same for a comparison of two sheets, whose refusal tells the sheet at fault.
pub fn pair_answer_of(result: Result<u32, independent::PairRefusal>) -> u64 {
    match result {
        Ok(value) => answer(0, value),
        Err(refused) => u64::from(refused.at_fault) << 40 | answer_of(Err(refused.refusal)),
    }
}
