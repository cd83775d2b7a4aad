//! Points as text: two numbers each, on a line of a file or in a word; and as doubles that stand in a file behind one
//! another.

use std::ffi::OsStr;
use std::io::{BufRead, BufReader, Read};

use crate::failure::{input, Failure};
use crate::files;
use crate::values::Values;

/// The most bytes of a line, its end among them.
const MOST_LINE: usize = 4096;

/// The bytes of a double.
const DOUBLE: usize = 8;

/// The coordinates of a file's lines, each of which has a point or nothing.
pub fn of_lines(name: &OsStr) -> Result<Vec<f64>, Failure> {
    let mut reader = BufReader::new(files::open(name)?);
    let (mut coordinates, mut line) = (Vec::new(), Vec::new());
    for number in 1_u64.. {
        line.clear();
        let read = reader.by_ref().take(MOST_LINE as u64 + 1).read_until(b'\n', &mut line);
        if read.map_err(|error| Failure::read(name, error))? == 0 {
            break;
        }
        let point = if line.len() > MOST_LINE { None } else { point_of(&line) };
        let wrong = || Failure::Message(format!("line {number} of {} is no pair of numbers", input(name)));
        coordinates.extend(point.ok_or_else(wrong)?.into_iter().flatten());
    }
    Ok(coordinates)
}

/// The coordinates of a file of doubles, little-endian.
pub fn of_doubles(name: &OsStr) -> Result<Vec<f64>, Failure> {
    let mut values = Values::open(name, DOUBLE)?;
    let mut coordinates = Vec::new();
    loop {
        let value = values.next().map_err(|error| Failure::read(name, error))?;
        match <[u8; DOUBLE]>::try_from(value) {
            Ok(bytes) => coordinates.push(f64::from_le_bytes(bytes)),
            Err(_) if value.is_empty() => return Ok(coordinates),
            Err(_) => {
                let rest = value.len();
                return Err(Failure::Message(format!(
                    "{} ends within a double, behind {rest} of its bytes",
                    input(name)
                )));
            }
        }
    }
}

/// The point on a line, two numbers with blanks or one comma between them, or no point where it is empty; none of both
/// where it has anything else.
fn point_of(line: &[u8]) -> Option<Option<[f64; 2]>> {
    let line = std::str::from_utf8(line).ok()?.trim_ascii();
    if line.is_empty() {
        return Some(None);
    }
    let (x, y) = line.split_once(',').or_else(|| line.split_once([' ', '\t']))?;
    Some(Some([number_of(x.trim_ascii())?, number_of(y.trim_ascii())?]))
}

/// The numbers of a word, with a comma between each two.
pub fn of_word<const N: usize>(name: &str, text: &str) -> Result<[f64; N], Failure> {
    let numbers: Option<Vec<f64>> = text.split(',').map(number_of).collect();
    numbers.and_then(|numbers| numbers.try_into().ok()).ok_or_else(|| {
        Failure::arguments(format!("{name} cannot be {text:?}: it is {N} numbers with a comma between each two"))
    })
}

/// The double nearest to a decimal, an infinity or a NaN. A decimal beyond the greatest double is none.
fn number_of(text: &str) -> Option<f64> {
    let number: f64 = text.parse().ok()?;
    let is_decimal = text.contains(|c: char| c.is_ascii_digit());
    (number.is_finite() || !is_decimal).then_some(number)
}
