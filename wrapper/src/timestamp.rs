//! Timestamps: counts of ticks since 1970-01-01 00:00:00, and dates and times of the Gregorian calendar.

use crate::refusal::result;
use crate::{boundary, Refusal};

/// A date and time.
#[derive(Clone, Copy, Debug, PartialEq, Eq, Hash)]
pub struct Fields {
    /// The year; year 0 is the one before year 1.
    pub year: i64,
    /// 1 to 12.
    pub month: i64,
    /// A day of the month.
    pub day: i64,
    /// 0 to 23.
    pub hour: i64,
    /// 0 to 59.
    pub minute: i64,
    /// 0 to 59.
    pub second: i64,
    /// Ticks of the unit, below one second.
    pub fraction: i64,
}

/// The date and time of a count in a unit, one of [`crate::codes::unit`]; refusal 20 for any other unit.
///
/// ```
/// use griffeljol::codes::unit;
/// use griffeljol::{decode, Fields};
///
/// let fields = Fields { year: 1969, month: 12, day: 31, hour: 23, minute: 59, second: 59, fraction: 999 };
/// assert_eq!(decode(unit::MILLIS, -1), Ok(fields));
/// ```
pub fn decode(unit: u32, count: i64) -> Result<Fields, Refusal> {
    let mut fields = [0; 7];
    result(boundary::decode(unit, count, &mut fields))?;
    let [year, month, day, hour, minute, second, fraction] = fields;
    Ok(Fields { year, month, day, hour, minute, second, fraction })
}

/// The count of a date and time in a unit. Any number may stand in each field: refusal 20 for the unit, then 18 where they form
/// no date or time, then 19 where no count holds it.
///
/// ```
/// use griffeljol::codes::unit;
/// use griffeljol::{encode, Fields};
///
/// let third = Fields { year: 1970, month: 1, day: 3, hour: 0, minute: 0, second: 0, fraction: 0 };
/// assert_eq!(encode(unit::MILLIS, &third), Ok(172_800_000));
/// let leap_day = Fields { year: 1900, month: 2, day: 29, ..third };
/// assert_eq!(encode(unit::MILLIS, &leap_day).unwrap_err().number, 18);
/// ```
pub fn encode(unit: u32, fields: &Fields) -> Result<i64, Refusal> {
    let Fields { year, month, day, hour, minute, second, fraction } = *fields;
    let fields = [year, month, day, hour, minute, second, fraction];
    let mut count = [0];
    result(boundary::encode(unit, &fields, &mut count))?;
    Ok(count[0])
}
