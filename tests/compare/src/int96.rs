//! INT96 times: random ones and those at every edge, turned into counts and back.

use independent::int96::{of_parts, value_of, EPOCH, SIZE};

use crate::comparison::{broken, Comparison, Difference};
use crate::random::Random;
use crate::side::refusal_of;

/// The nanoseconds of a day.
pub const DAY: u64 = 86_400_000_000_000;
/// The Julian days that the least and the greatest count are in.
pub const FIRST_DAY: u32 = 2_333_836;
pub const LAST_DAY: u32 = 2_547_339;

/// A value: of 12 bytes most of the time, and near the bounds of a day, of a count or of what its bytes hold.
pub fn value(random: &mut Random) -> Vec<u8> {
    let mut value = match random.below(6) {
        0 => near_end(random).to_vec(),
        1 => {
            let mut bytes = vec![0; SIZE];
            random.fill(&mut bytes);
            bytes
        }
        2 => {
            // A byte of another value changed.
            let mut value = value_of(random.any() as i64);
            value[random.below(SIZE)] = random.byte();
            value.to_vec()
        }
        _ => of_parts(nanoseconds(random), day(random)).to_vec(),
    };
    if random.percent(12) {
        let any = random.below(2 * SIZE + 1);
        value.resize(random.pick(&[SIZE - 1, SIZE + 1, 0, any, any]), random.pick(&[0, 0xFF]));
    }
    value
}

/// The value of an end of all counts, or one a few nanoseconds from it, in the same day or in one beside it.
fn near_end(random: &mut Random) -> [u8; SIZE] {
    let (end, day) = random.pick(&[(i64::MIN, FIRST_DAY), (i64::MAX, LAST_DAY)]);
    let of_day = end.rem_euclid(DAY as i64) as u64;
    let any = random.below(DAY as usize) as u64;
    let near = of_day - 2 + random.below(5) as u64;
    of_parts(random.pick(&[near, near, near, 0, any]), day - 1 + random.pick(&[0, 1, 1, 1, 2]))
}

/// Nanoseconds in a day: any, at its ends, or more than it has.
fn nanoseconds(random: &mut Random) -> u64 {
    let any = random.below(DAY as usize) as u64;
    let beyond = random.any() | DAY;
    random.pick(&[any, any, 0, 1, DAY / 2, DAY - 1, DAY, DAY + 1, beyond, 1 << 63, u64::MAX])
}

/// A Julian day: one of a count, near 1970, or far away, also as far below 2^32 as one of a count is above 0.
fn day(random: &mut Random) -> u32 {
    let of_count = random.between(FIRST_DAY as usize, LAST_DAY as usize) as u32;
    let near = EPOCH - 2 + random.below(5) as u32;
    let any = random.of_any_size() as u32;
    let negated = of_count.wrapping_neg();
    random.pick(&[of_count, of_count, near, near, negated, any, 0, i32::MAX as u32, 1 << 31, u32::MAX])
}

/// Turns a value into its count with so many numbers lent, and an accepted one back.
pub fn from_and_back(comparison: &mut Comparison, value: &[u8], lent: usize) -> Result<(), Difference> {
    let answer = comparison.from_int96(value, lent)?;
    if refusal_of(answer) != 0 {
        return Ok(());
    }
    let count = comparison.encoded();
    let back = comparison.to_int96(count, SIZE)?;
    if refusal_of(back) != 0 || comparison.int96() != value {
        return Err(broken("from_int96", format!("the value of count {count} does not come back"), value));
    }
    Ok(())
}

/// Turns a count into its value with so many bytes lent, and that back.
pub fn to_and_back(comparison: &mut Comparison, count: i64, lent: usize) -> Result<(), Difference> {
    let answer = comparison.to_int96(count, lent)?;
    if refusal_of(answer) != 0 {
        return Ok(());
    }
    let value = comparison.int96();
    let back = comparison.from_int96(&value, 1)?;
    if refusal_of(back) != 0 || comparison.encoded() != count {
        return Err(broken("to_int96", format!("count {count} does not come back"), &value));
    }
    Ok(())
}
