//! Single values read, and two values ordered both ways round.
//!
//! The questions are a count, and for each its edition, where that stands before each, the length of its title and the title, the five
//! numbers of a column type, a value, whether a second follows, and that. A value is its length, how many of its bytes are given, the byte that the others are, and those given.

use super::questions::{Editions, Questions};
use super::Answered;
use crate::columns::Column;
use crate::comparison::{Comparison, Difference};
use crate::side::{refusal_of, shown, Side};

/// More bytes than the longest value that is read.
const MOST_BYTES: usize = 65_600;
/// The numbers that reading writes.
const READ_WIDTH: usize = 2;

/// A value of a column to read, or two to order, in an edition.
struct Question<'a> {
    edition: u32,
    title: &'a str,
    column: Column,
    first: Vec<u8>,
    second: Option<Vec<u8>>,
}

pub fn ask(side: &dyn Side, questions: &[u8], editions: Editions) -> Result<Answered, String> {
    let mut answered = Answered::default();
    for Question { edition, title, column, first, second } in all(questions, editions)? {
        let Some(second) = second else {
            answered.add(format_args!("{title}: {}", read(side, edition, column, &first)));
            continue;
        };
        let order = |a: &[u8], b: &[u8]| order(side, edition, column, a, b);
        answered.add(format_args!("{title}: {}, {}", order(&first, &second), order(&second, &first)));
    }
    Ok(answered)
}

/// Asks both sides every question in every edition.
pub fn compare(comparison: &mut Comparison, questions: &[u8], editions: Editions) -> Result<(), String> {
    for Question { column, first, second, .. } in all(questions, editions)? {
        match second {
            None => comparison.read_in_all(column, &first, READ_WIDTH).map(drop),
            Some(second) => comparison.order_in_all(column, &first, &second),
        }
        .map_err(|difference: Difference| difference.to_string())?;
    }
    Ok(())
}

fn all(questions: &[u8], editions: Editions) -> Result<Vec<Question<'_>>, String> {
    let mut questions = Questions::new(questions, editions);
    let mut all = Vec::new();
    for _ in 0..questions.number()? {
        let edition = questions.edition()?;
        let length = questions.length()?;
        let title = questions.text(length)?;
        let mut column: Column = [0; 5];
        for number in &mut column {
            *number = questions.number()?;
        }
        let first = value(&mut questions)?;
        let second = if questions.number()? == 0 { None } else { Some(value(&mut questions)?) };
        all.push(Question { edition, title, column, first, second });
    }
    questions.end()?;
    Ok(all)
}

fn value(questions: &mut Questions) -> Result<Vec<u8>, String> {
    let length = questions.length_up_to(MOST_BYTES)?;
    let given = questions.length_up_to(length)?;
    let fill = questions.number()? as u8;
    let mut value = questions.bytes(given)?.to_vec();
    value.resize(length, fill);
    Ok(value)
}

/// What a value is read as. A NaN is the quiet one with no other bit set.
fn read(side: &dyn Side, edition: u32, column: Column, value: &[u8]) -> String {
    const MARKS: [u64; READ_WIDTH] = [0xAAAA_AAAA_AAAA_AAAA, 0x5555_5555_5555_5555];
    let mut out = MARKS;
    let answer = side.read(edition, column, value, &mut out);
    match (answer, out) {
        (0, [0, 0]) => "false".to_string(),
        (0, [1, 0]) => "true".to_string(),
        (1, [number, 0]) => (number as i64).to_string(),
        (2, [number, 0]) => number.to_string(),
        (3, [0x7FC0_0000, 0]) => "float NaN".to_string(),
        (3, [bits, 0]) => format!("float {bits:08x}"),
        (4, [0x7FF8_0000_0000_0000, 0]) => "double NaN".to_string(),
        (4, [bits, 0]) => format!("double {bits:016x}"),
        (5, [start, length]) => format!("bytes {start} {length}"),
        (_, MARKS) if refusal_of(answer) != 0 => shown(answer),
        _ => format!("{} with {out:x?}", shown(answer)),
    }
}

fn order(side: &dyn Side, edition: u32, column: Column, a: &[u8], b: &[u8]) -> String {
    match side.order(edition, column, a, b) {
        0 => "less".to_string(),
        1 => "equal".to_string(),
        2 => "greater".to_string(),
        3 => "unordered".to_string(),
        answer => shown(answer),
    }
}
