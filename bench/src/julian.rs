//! INT96 times as a program of one's own turns them: once with every check, in 128 bits, and once without, as readers of Parquet do.

/// The nanoseconds of a day, and the Julian day of 1 January 1970.
const DAY: i64 = 86_400_000_000_000;
const EPOCH: i64 = 2_440_588;

/// The count of a value, where it is one and its count fits. Never inlined: a call of the library is a call too.
#[inline(never)]
pub fn count_checked(value: &[u8]) -> Option<i64> {
    let value: &[u8; 12] = value.try_into().ok()?;
    let (nanos, day) = parts(value);
    if nanos >= DAY as u64 {
        return None;
    }
    let count = (i128::from(day) - i128::from(EPOCH)) * i128::from(DAY) + i128::from(nanos);
    i64::try_from(count).ok()
}

/// The count of a value that is not looked at, in 64 bits that wrap.
#[inline(never)]
pub fn count_unchecked(value: &[u8; 12]) -> i64 {
    let (nanos, day) = parts(value);
    (i64::from(day) - EPOCH).wrapping_mul(DAY).wrapping_add(nanos as i64)
}

/// Writes the value of a count.
#[inline(never)]
pub fn write_value(count: i64, value: &mut [u8; 12]) {
    let (day, nanos) = (count.div_euclid(DAY) + EPOCH, count.rem_euclid(DAY));
    value[..8].copy_from_slice(&(nanos as u64).to_le_bytes());
    value[8..].copy_from_slice(&(day as u32).to_le_bytes());
}

fn parts(value: &[u8; 12]) -> (u64, u32) {
    let [a, b, c, d, e, f, g, h, day @ ..] = *value;
    (u64::from_le_bytes([a, b, c, d, e, f, g, h]), u32::from_le_bytes(day))
}
