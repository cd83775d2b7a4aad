//! `griffeljol timestamp`: a count as a date and time, and back.

use griffeljol::codes::unit;
use griffeljol::Fields;

use crate::answer::Answer;
use crate::arguments::{Arguments, JSON};
use crate::failure::Failure;
use crate::json::Json;

/// What is asked of a unit.
enum Request {
    Decode(u32, i64),
    Encode(u32, Fields),
}

pub fn run(mut arguments: Arguments) -> Result<Answer, Failure> {
    let request = match arguments.text("decode or encode")?.as_str() {
        "decode" => {
            let unit = unit_of(&arguments.text("UNIT")?)?;
            Request::Decode(unit, arguments.number("COUNT")?)
        }
        "encode" => {
            let unit = unit_of(&arguments.text("UNIT")?)?;
            let (date, time) = (arguments.text("DATE")?, arguments.text("TIME")?);
            Request::Encode(unit, fields_of(unit, &date, &time)?)
        }
        other => return Err(Failure::arguments(format!("timestamp takes decode or encode, and not {other:?}"))),
    };
    let wants_json = arguments.has(JSON);
    arguments.end()?;
    let (unit, count, fields, text) = match request {
        Request::Decode(unit, count) => {
            let fields = griffeljol::decode(unit, count)?;
            (unit, count, fields, shown(unit, &fields))
        }
        Request::Encode(unit, fields) => {
            let count = griffeljol::encode(unit, &fields)?;
            (unit, count, fields, count.to_string())
        }
    };
    let text = if wants_json { Json::Object(members(unit, count, &fields).into()).line() } else { text + "\n" };
    Ok(text.into())
}

/// A unit by its name or its number. Which numbers are units is the library's to say.
fn unit_of(text: &str) -> Result<u32, Failure> {
    match text {
        "millis" => Ok(unit::MILLIS),
        "micros" => Ok(unit::MICROS),
        "nanos" => Ok(unit::NANOS),
        _ => text.parse().map_err(|_| {
            Failure::arguments(format!("UNIT cannot be {text:?}: it is millis, micros, nanos or a number"))
        }),
    }
}

/// The digits of a fraction of a second in a unit.
fn fraction_digits(unit: u32) -> usize {
    match unit {
        unit::MILLIS => 3,
        unit::MICROS => 6,
        // Nanoseconds, or what is no unit, which the library refuses.
        _ => 9,
    }
}

/// A date and time, the fraction with every digit of its unit.
pub fn shown(unit: u32, fields: &Fields) -> String {
    let Fields { year, month, day, hour, minute, second, fraction } = *fields;
    let sign = if year < 0 { "-" } else { "" };
    let year = year.unsigned_abs();
    let digits = fraction_digits(unit);
    format!("{sign}{year:04}-{month:02}-{day:02} {hour:02}:{minute:02}:{second:02}.{fraction:0digits$}")
}

/// The fields of a spelled date and time. Whether they form one is the library's to say.
fn fields_of(unit: u32, date: &str, time: &str) -> Result<Fields, Failure> {
    let Some((year, month, day)) = date_of(date) else {
        return Err(Failure::arguments(format!("DATE cannot be {date:?}: it is YEAR-MONTH-DAY")));
    };
    let Some((hour, minute, second, fraction)) = time_of(unit, time) else {
        let digits = fraction_digits(unit);
        return Err(Failure::arguments(format!(
            "TIME cannot be {time:?}: it is HOUR:MINUTE:SECOND, with at most {digits} digits behind a point"
        )));
    };
    Ok(Fields { year, month, day, hour, minute, second, fraction })
}

/// Year, month and day. The year may have a sign, so they are taken from the end.
fn date_of(text: &str) -> Option<(i64, i64, i64)> {
    let mut parts = text.rsplitn(3, '-');
    let (day, month) = (number(parts.next()?)?, number(parts.next()?)?);
    Some((parts.next()?.parse().ok()?, month, day))
}

/// Hour, minute, second and fraction.
fn time_of(unit: u32, text: &str) -> Option<(i64, i64, i64, i64)> {
    let mut parts = text.splitn(3, ':');
    let (hour, minute, second) = (number(parts.next()?)?, number(parts.next()?)?, parts.next()?);
    match second.split_once('.') {
        None => Some((hour, minute, number(second)?, 0)),
        Some((second, fraction)) => Some((hour, minute, number(second)?, ticks(unit, fraction)?)),
    }
}

/// The ticks of a fraction of a second: its digits, filled up to those of the unit. A finer fraction has none.
fn ticks(unit: u32, fraction: &str) -> Option<i64> {
    let digits = fraction_digits(unit);
    (1..=digits).contains(&fraction.len()).then(|| number(&format!("{fraction:0<digits$}")))?
}

/// A number of digits alone.
fn number(text: &str) -> Option<i64> {
    text.bytes().all(|byte| byte.is_ascii_digit()).then(|| text.parse().ok())?
}

/// A count beside its fields, as members of an object.
pub fn members(unit: u32, count: i64, fields: &Fields) -> [(&'static str, Json); 9] {
    let Fields { year, month, day, hour, minute, second, fraction } = *fields;
    [
        ("unit", Json::number(unit)),
        ("count", Json::number(count)),
        ("year", Json::number(year)),
        ("month", Json::number(month)),
        ("day", Json::number(day)),
        ("hour", Json::number(hour)),
        ("minute", Json::number(minute)),
        ("second", Json::number(second)),
        ("fraction", Json::number(fraction)),
    ]
}
