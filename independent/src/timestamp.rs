//! Timestamps: counts of ticks since 1970-01-01 00:00:00, and dates and times of the Gregorian calendar.

use crate::refusal::{self, Refusal};

/// A time unit.
#[derive(Clone, Copy, Debug, PartialEq, Eq)]
pub enum Unit {
    /// Milliseconds.
    Millis = 1,
    /// Microseconds.
    Micros = 2,
    /// Nanoseconds.
    Nanos = 3,
}

impl Unit {
    /// The unit of a code, 1 to 3.
    pub fn from_code(code: u32) -> Option<Self> {
        match code {
            1 => Some(Unit::Millis),
            2 => Some(Unit::Micros),
            3 => Some(Unit::Nanos),
            _ => None,
        }
    }

    /// Its ticks in a second.
    pub const fn ticks_per_second(self) -> i64 {
        match self {
            Unit::Millis => 1_000,
            Unit::Micros => 1_000_000,
            Unit::Nanos => 1_000_000_000,
        }
    }

    /// Its ticks in a day.
    pub const fn ticks_per_day(self) -> i64 {
        SECONDS_PER_DAY * self.ticks_per_second()
    }
}

const SECONDS_PER_MINUTE: i64 = 60;
const SECONDS_PER_HOUR: i64 = 60 * SECONDS_PER_MINUTE;
const SECONDS_PER_DAY: i64 = 24 * SECONDS_PER_HOUR;

/// A date and time. The fraction is in ticks of the unit.
#[derive(Clone, Copy, Debug, PartialEq, Eq)]
#[allow(missing_docs)]
pub struct Fields {
    pub year: i64,
    pub month: i64,
    pub day: i64,
    pub hour: i64,
    pub minute: i64,
    pub second: i64,
    pub fraction: i64,
}

/// The date and time of a count. Every count has one.
pub fn decode(unit: u32, count: i64) -> Result<Fields, Refusal> {
    let unit = unit_of(unit)?;
    // Euclid's division rounds down, so the rest is never negative.
    let (year, month, day) = date_of(count.div_euclid(unit.ticks_per_day()));
    let of_day = count.rem_euclid(unit.ticks_per_day());
    let second = of_day / unit.ticks_per_second();
    Ok(Fields {
        year,
        month,
        day,
        hour: second / SECONDS_PER_HOUR,
        minute: second % SECONDS_PER_HOUR / SECONDS_PER_MINUTE,
        second: second % SECONDS_PER_MINUTE,
        fraction: of_day % unit.ticks_per_second(),
    })
}

/// The count of a date and time: any numbers are taken and judged.
pub fn encode(unit: u32, fields: &Fields) -> Result<i64, Refusal> {
    let unit = unit_of(unit)?;
    let is_date = (1..=12).contains(&fields.month)
        && (1..=days_of_month(is_leap(fields.year), fields.month as usize)).contains(&fields.day);
    let is_time = (0..24).contains(&fields.hour)
        && (0..60).contains(&fields.minute)
        && (0..60).contains(&fields.second)
        && (0..unit.ticks_per_second()).contains(&fields.fraction);
    if !(is_date && is_time) {
        return Err(Refusal::whole(refusal::NO_DATE));
    }
    let second = fields.hour * SECONDS_PER_HOUR + fields.minute * SECONDS_PER_MINUTE + fields.second;
    let of_day = second * unit.ticks_per_second() + fields.fraction;
    let count =
        day_number(fields.year, fields.month, fields.day) * i128::from(unit.ticks_per_day()) + i128::from(of_day);
    i64::try_from(count).map_err(|_| Refusal::whole(refusal::NO_COUNT))
}

fn unit_of(code: u32) -> Result<Unit, Refusal> {
    Unit::from_code(code).ok_or(Refusal::whole(refusal::COLUMN_TYPE))
}

fn is_leap(year: i64) -> bool {
    year % 4 == 0 && (year % 100 != 0 || year % 400 == 0)
}

fn days_of_month(is_leap: bool, month: usize) -> i64 {
    const DAYS: [i64; 13] = [0, 31, 28, 31, 30, 31, 30, 31, 31, 30, 31, 30, 31];
    DAYS[month] + i64::from(is_leap && month == 2)
}

/// Days before each month of a year without a leap day, by the month.
const DAYS_BEFORE: [i128; 13] = [0, 0, 31, 59, 90, 120, 151, 181, 212, 243, 273, 304, 334];
/// Days from 1 January of year 0 to 1 January 1970.
const EPOCH: i128 = 719_528;

/// The days from 1 January 1970 to a date.
fn day_number(year: i64, month: i64, day: i64) -> i128 {
    let leap_day = i128::from(is_leap(year) && month > 2);
    // Leap years before this one, from year 0 on; fewer than none before year 0.
    let before = i128::from(year) - 1;
    let leap_years = before.div_euclid(4) - before.div_euclid(100) + before.div_euclid(400) + 1;
    365 * i128::from(year) + leap_years + DAYS_BEFORE[month as usize] + leap_day + i128::from(day) - 1 - EPOCH
}

/// The year, month and day of a day number.
///
/// Days are counted from 1 March of year 0, and years from March on, so that a leap day is the last day of its year. Then
/// 400 years are four centuries and a day, a century is 25 times four years less a day, four years are four years of 365
/// days and a day; and each of these days stands at the end, behind the last of the equal parts.
fn date_of(day_number: i64) -> (i64, i64, i64) {
    const FROM_MARCH: i64 = 719_468;
    const YEAR: i64 = 365;
    const YEARS_4: i64 = 4 * YEAR + 1;
    const YEARS_100: i64 = 25 * YEARS_4 - 1;
    const YEARS_400: i64 = 4 * YEARS_100 + 1;
    /// Days before each month of a year that begins in March.
    const BEFORE: [i64; 12] = [0, 31, 61, 92, 122, 153, 184, 214, 245, 275, 306, 337];

    let days = day_number + FROM_MARCH;
    let cycles = days.div_euclid(YEARS_400);
    let of_cycle = days.rem_euclid(YEARS_400);
    let centuries = (of_cycle / YEARS_100).min(3);
    let of_century = of_cycle - centuries * YEARS_100;
    let fours = of_century / YEARS_4;
    let of_four = of_century % YEARS_4;
    let years = (of_four / YEAR).min(3);
    let of_year = of_four - years * YEAR;
    let from_march = BEFORE.partition_point(|&before| before <= of_year) - 1;
    let day = of_year - BEFORE[from_march] + 1;
    // January and February are months 10 and 11 from March, of the next year.
    let (month, next) = if from_march < 10 { (from_march + 3, 0) } else { (from_march - 9, 1) };
    (400 * cycles + 100 * centuries + 4 * fours + years + next, month as i64, day)
}
