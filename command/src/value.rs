//! `griffeljol value`: one value of a column.

use griffeljol::codes::{kind, physical};
use griffeljol::{ColumnType, Value, MAX_VALUE};

use crate::answer::Answer;
use crate::arguments::{Arguments, HEX, JSON};
use crate::failure::Failure;
use crate::json::Json;
use crate::{files, hex, int96};

pub fn run(mut arguments: Arguments) -> Result<Answer, Failure> {
    let column = ColumnType {
        physical: arguments.number("PHYSICAL")?,
        type_length: arguments.number("LENGTH")?,
        kind: arguments.number("KIND")?,
        p1: arguments.number("P1")?,
        p2: arguments.number("P2")?,
    };
    let given = arguments.option(HEX).map(hex::bytes).transpose()?;
    let file = if given.is_none() { Some(arguments.word("FILE or --hex HEX")?) } else { None };
    let edition = arguments.edition()?;
    let wants_json = arguments.has(JSON);
    arguments.end()?;
    let bytes = match file {
        Some(file) => files::read(&file, MAX_VALUE)?,
        None => given.unwrap_or_default(),
    };
    let value = griffeljol::read(edition, column, &bytes)?;
    let is_int96 = column.physical == physical::INT96 && column.kind == kind::PLAIN_LEAF;
    let time = is_int96.then(|| int96::time_of(&bytes));
    let text = if wants_json { object(value, time).line() } else { line(value, time.flatten()) };
    Ok(text.into())
}

/// A value on a line, an INT96 with its time behind it where it has one. A float stands as the shortest decimal that reads back as it.
fn line(value: Value, time: Option<String>) -> String {
    match value {
        Value::Truth(truth) => format!("{truth}\n"),
        Value::Signed(number) => format!("{number}\n"),
        Value::Unsigned(number) => format!("{number}\n"),
        Value::Float(float) => format!("float {float:?}\n"),
        Value::Double(double) => format!("double {double:?}\n"),
        Value::Bytes { start, length } => match time {
            None => format!("bytes {start} {length}\n"),
            Some(time) => format!("bytes {start} {length} {time}\n"),
        },
    }
}

/// A value with its case, an INT96 with its time. Floats that JSON cannot spell are null; their bits stand in hexadecimal.
fn object(value: Value, time: Option<Option<String>>) -> Json {
    let case = |name| ("case", Json::text(name));
    let float = |name, decimal: Option<String>, bits| {
        let decimal = decimal.map_or(Json::Null, Json::Number);
        vec![case(name), ("value", decimal), ("bits", Json::Text(bits))]
    };
    Json::Object(match value {
        Value::Truth(truth) => vec![case("truth"), ("value", Json::Truth(truth))],
        Value::Signed(number) => vec![case("signed"), ("value", Json::number(number))],
        Value::Unsigned(number) => vec![case("unsigned"), ("value", Json::number(number))],
        Value::Float(x) => float("float", x.is_finite().then(|| format!("{x:?}")), format!("{:08x}", x.to_bits())),
        Value::Double(x) => float("double", x.is_finite().then(|| format!("{x:?}")), format!("{:016x}", x.to_bits())),
        Value::Bytes { start, length } => {
            let mut members = vec![case("bytes"), ("start", Json::number(start)), ("length", Json::number(length))];
            members.extend(time.map(|time| ("time", Json::maybe(time))));
            members
        }
    })
}
