//! INT96 times, by document 02's R-10: 8 bytes of nanoseconds in the day, then 4 bytes of Julian day, both unsigned little-endian; turned
//! into a TIMESTAMP's count in nanoseconds and back.

use crate::refusal::{self, Refusal};
use crate::timestamp::Unit;

/// The bytes of a value.
pub const SIZE: usize = 12;
/// The bytes of it that are nanoseconds in the day; those behind them are the Julian day.
const OF_DAY: usize = 8;
/// The Julian day of 1 January 1970.
pub const EPOCH: u32 = 2_440_588;
/// The nanoseconds of a day.
const DAY: i64 = Unit::Nanos.ticks_per_day();

/// Turns a value into its count, which is written to the first of the lent numbers: refusal 15, then 16, then 19, then 14. Answers 1,
/// how many are written.
pub fn from_int96(value: &[u8], out: &mut [i64]) -> Result<u32, Refusal> {
    let count = count_of(value)?;
    *out.first_mut().ok_or(Refusal::whole(refusal::OUTPUT))? = count;
    Ok(1)
}

/// Turns a count into its value, which is written to the first of the lent bytes: refusal 14. Answers 12, how many are written.
pub fn to_int96(count: i64, out: &mut [u8]) -> Result<u32, Refusal> {
    let value = value_of(count);
    *out.first_chunk_mut().ok_or(Refusal::whole(refusal::OUTPUT))? = value;
    Ok(SIZE as u32)
}

/// The nanoseconds from the start of 1 January 1970 to a value's time: refusal 15, then 16, then 19.
pub fn count_of(value: &[u8]) -> Result<i64, Refusal> {
    let value: &[u8; SIZE] = value.try_into().map_err(|_| Refusal::whole(refusal::VALUE_LENGTH))?;
    let (of_day, day) = parts(value);
    if of_day >= DAY as u64 {
        return Err(Refusal::whole(refusal::VALUE));
    }
    let days = i128::from(day) - i128::from(EPOCH);
    let count = days * i128::from(DAY) + i128::from(of_day);
    i64::try_from(count).map_err(|_| Refusal::whole(refusal::NO_COUNT))
}

/// The value of a count. Every count has one: the days of all counts are Julian days from 2,333,836 to 2,547,339.
pub fn value_of(count: i64) -> [u8; SIZE] {
    // Euclid's division rounds down, so the rest is never negative.
    let day = i64::from(EPOCH) + count.div_euclid(DAY);
    let of_day = count.rem_euclid(DAY);
    of_parts(of_day as u64, day as u32)
}

/// The nanoseconds in the day, and the Julian day.
fn parts(value: &[u8; SIZE]) -> (u64, u32) {
    let (mut of_day, mut day) = ([0; OF_DAY], [0; SIZE - OF_DAY]);
    of_day.copy_from_slice(&value[..OF_DAY]);
    day.copy_from_slice(&value[OF_DAY..]);
    (u64::from_le_bytes(of_day), u32::from_le_bytes(day))
}

/// The value of so many nanoseconds in a Julian day, whether they are of a day or not.
pub fn of_parts(of_day: u64, day: u32) -> [u8; SIZE] {
    let mut value = [0; SIZE];
    value[..OF_DAY].copy_from_slice(&of_day.to_le_bytes());
    value[OF_DAY..].copy_from_slice(&day.to_le_bytes());
    value
}
