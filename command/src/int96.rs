//! `griffeljol int96`: an INT96 time as a count and its date and time, one or a file of many, and back.

use std::ffi::{OsStr, OsString};
use std::io::{self, BufWriter, Write};

use griffeljol::codes::unit;
use griffeljol::{Fields, Refusal, INT96_WIDTH};

use crate::answer::Answer;
use crate::arguments::{Arguments, FILE, JSON};
use crate::failure::{Failure, Refused};
use crate::files::STANDARD;
use crate::json::{self, Json};
use crate::progress::Progress;
use crate::values::Values;
use crate::{hex, timestamp};

/// What is asked.
enum Request {
    Decode(Vec<u8>),
    DecodeFile(OsString),
    Encode(i64),
}

pub fn run(mut arguments: Arguments) -> Result<Answer, Failure> {
    let request = request(&mut arguments)?;
    let wants_json = arguments.has(JSON);
    arguments.end()?;
    let (time, text) = match request {
        Request::DecodeFile(file) => return decode_file(&file, wants_json),
        Request::Decode(value) => {
            let time = Time::of_value(&value)?;
            (time, time.shown())
        }
        Request::Encode(count) => (Time::of_count(count)?, hex::shown(&griffeljol::to_int96(count))),
    };
    let text = if wants_json { Json::Object(time.members()).line() } else { text + "\n" };
    Ok(text.into())
}

fn request(arguments: &mut Arguments) -> Result<Request, Failure> {
    let file = arguments.option(FILE).map(OsStr::to_owned);
    match (arguments.text("decode or encode")?.as_str(), file) {
        ("decode", Some(file)) => Ok(Request::DecodeFile(file)),
        ("decode", None) => Ok(Request::Decode(hex::bytes(&arguments.word("HEX or --file FILE")?)?)),
        ("encode", None) => Ok(Request::Encode(arguments.number("COUNT")?)),
        ("encode", Some(_)) => Err(Failure::arguments("encode takes no --file")),
        (other, _) => Err(Failure::arguments(format!("int96 takes decode or encode, and not {other:?}"))),
    }
}

/// A count in nanoseconds, and its date and time.
#[derive(Clone, Copy)]
struct Time {
    count: i64,
    fields: Fields,
}

impl Time {
    fn of_value(value: &[u8]) -> Result<Self, Refused> {
        Ok(Time::of_count(griffeljol::from_int96(value).map_err(refused)?)?)
    }

    fn of_count(count: i64) -> Result<Self, Refusal> {
        Ok(Time { count, fields: griffeljol::decode(unit::NANOS, count)? })
    }

    fn shown(&self) -> String {
        format!("{} {}", self.count, timestamp::shown(unit::NANOS, &self.fields))
    }

    /// The bytes of its INT96, the count and the fields.
    fn members(&self) -> Vec<(&'static str, Json)> {
        let mut members = vec![("int96", Json::text(hex::shown(&griffeljol::to_int96(self.count))))];
        members.extend(timestamp::members(unit::NANOS, self.count, &self.fields));
        members
    }
}

/// A refused value, in the words of an INT96. Its place is always 0.
fn refused(refusal: Refusal) -> Refused {
    Refused { meaning: refusal.int96_meaning(), place: None, ..refusal.into() }
}

/// The date and time of a value, where it has one.
pub fn time_of(value: &[u8]) -> Option<String> {
    Time::of_value(value).ok().map(|time| timestamp::shown(unit::NANOS, &time.fields))
}

/// Turns the values of a file one by one, and prints a line for each as it goes.
fn decode_file(name: &OsStr, wants_json: bool) -> Result<Answer, Failure> {
    let mut values = Values::open(name, INT96_WIDTH)?;
    let mut out = BufWriter::new(io::stdout().lock());
    let mut progress = Progress::new();
    let (mut count, mut refused) = (0, 0);
    loop {
        if !values.has_next() {
            // Whoever reads along waits for no line while the next values are waited for.
            out.flush().map_err(written)?;
        }
        let value = values.next().map_err(|error| Failure::read(name, error))?;
        if value.is_empty() {
            break;
        }
        let time = Time::of_value(value);
        let line = if wants_json { object(count, value, &time).line() } else { line(count, &time) };
        out.write_all(line.as_bytes()).map_err(written)?;
        count += 1;
        refused += u64::from(time.is_err());
        progress.tell(count);
    }
    match refused {
        0 => Ok(Vec::new().into()),
        _ => Err(Failure::RefusedValues { refused, count }),
    }
}

fn written(error: io::Error) -> Failure {
    Failure::write(OsStr::new(STANDARD), error)
}

/// A value of a file on a line.
fn line(index: u64, time: &Result<Time, Refused>) -> String {
    match time {
        Ok(time) => format!("{index} {}\n", time.shown()),
        Err(Refused { refusal, meaning, .. }) => format!("{index} {refusal}, {meaning}\n"),
    }
}

/// A value of a file as an object.
fn object(index: u64, value: &[u8], time: &Result<Time, Refused>) -> Json {
    let mut members = vec![("index", Json::number(index))];
    match time {
        Ok(time) => members.extend(time.members()),
        Err(refused) => {
            members.push(("int96", Json::text(hex::shown(value))));
            members.extend(json::refusal_members(refused));
        }
    }
    Json::Object(members)
}
