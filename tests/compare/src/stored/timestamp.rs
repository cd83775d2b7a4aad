//! Counts decoded and fields encoded: a line has the question and, behind a colon, the answer.

use super::Answered;
use crate::side::{refusal_of, refused, shown, Side};

/// What lent numbers hold before.
const MARK: i64 = 0x5A5A_5A5A_5A5A_5A5A;

pub fn ask(side: &dyn Side, lines: &[u8]) -> Result<Answered, String> {
    super::ask_lines(lines, |question| line_of(side, question))
}

/// The line of `decode UNIT COUNT` or `encode UNIT FIELDS`.
fn line_of(side: &dyn Side, question: &str) -> Option<String> {
    let mut words = question.split(' ');
    let entry = words.next()?;
    let unit = words.next()?.parse().ok()?;
    let numbers = words.map(|word| word.parse().ok()).collect::<Option<Vec<i64>>>()?;
    let answer = match (entry, &numbers[..]) {
        ("decode", [count]) => decoded(side, unit, *count),
        ("encode", [_, _, _, _, _, _, _]) => encoded(side, unit, &numbers),
        _ => return None,
    };
    Some(format!("{entry} {unit} {}: {answer}", text(&numbers)))
}

/// The fields of a count.
fn decoded(side: &dyn Side, unit: u32, count: i64) -> String {
    let mut fields = [MARK; 7];
    match side.decode(unit, count, &mut fields) {
        7 => text(&fields),
        answer => refusal(answer, &fields),
    }
}

/// The count of fields, and that decoded again.
fn encoded(side: &dyn Side, unit: u32, fields: &[i64]) -> String {
    let mut count = [MARK];
    match side.encode(unit, fields, &mut count) {
        1 => format!("{}: {}", count[0], decoded(side, unit, count[0])),
        answer => refusal(answer, &count),
    }
}

/// A refusal, which has place 0 and leaves the lent numbers as they were.
fn refusal(answer: u64, lent: &[i64]) -> String {
    let number = refusal_of(answer);
    if answer == refused(number, 0) && lent.iter().all(|&number| number == MARK) {
        return format!("refused {number}");
    }
    format!("{} with {lent:?}", shown(answer))
}

fn text(numbers: &[i64]) -> String {
    numbers.iter().map(i64::to_string).collect::<Vec<_>>().join(" ")
}
