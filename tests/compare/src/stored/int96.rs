//! INT96 times turned into counts and counts into INT96: a line has the question and, behind a colon, the answer.

use super::Answered;
use crate::side::{refusal_of, refused, shown, Side};

/// What lent numbers and lent bytes hold before.
const NUMBER: i64 = 0x2B2B_2B2B_2B2B_2B2B;
const BYTE: u8 = 0x2B;
/// The bytes of an INT96.
const SIZE: usize = 12;
/// More elements than any question lends.
const MOST_LENT: usize = 1_000;

pub fn ask(side: &dyn Side, lines: &[u8]) -> Result<Answered, String> {
    super::ask_lines(lines, |question| line_of(side, question))
}

/// The line of `from BYTES LENT` or `to COUNT LENT`.
fn line_of(side: &dyn Side, question: &str) -> Option<String> {
    let [entry, given, lent] = question.split(' ').collect::<Vec<_>>()[..] else { return None };
    let length = lent.parse().ok().filter(|&length| length <= MOST_LENT)?;
    let answer = match entry {
        "from" => from(side, &bytes_of(given)?, length),
        "to" => to(side, given.parse().ok()?, length),
        _ => return None,
    };
    Some(format!("{question}: {answer}"))
}

/// The count of a value, and that turned back.
fn from(side: &dyn Side, value: &[u8], lent: usize) -> String {
    let mut out = vec![NUMBER; lent];
    let answer = side.from_int96(value, &mut out);
    told(answer, &out, NUMBER, 1, |count| {
        let mut back = [BYTE; SIZE];
        match side.to_int96(count[0], &mut back) {
            12 => format!("{}: {}", count[0], hex(&back)),
            answer => format!("{}: {}", count[0], shown(answer)),
        }
    })
}

/// The value of a count, and that turned back.
fn to(side: &dyn Side, count: i64, lent: usize) -> String {
    let mut out = vec![BYTE; lent];
    let answer = side.to_int96(count, &mut out);
    told(answer, &out, BYTE, SIZE, |value| {
        let mut back = [NUMBER];
        match side.from_int96(value, &mut back) {
            1 => format!("{}: {}", hex(value), back[0]),
            answer => format!("{}: {}", hex(value), shown(answer)),
        }
    })
}

/// What was written, of so many elements, or a refusal at place 0; and whether the rest of what was lent is as it was.
fn told<T: PartialEq>(answer: u64, out: &[T], mark: T, width: usize, text: impl FnOnce(&[T]) -> String) -> String {
    let written = if refusal_of(answer) == 0 { width.min(out.len()) } else { 0 };
    let (written, rest) = out.split_at(written);
    let kept = if rest.iter().all(|element| *element == mark) { "kept" } else { "changed" };
    match refusal_of(answer) {
        0 if answer == width as u64 && written.len() == width => format!("{kept} {}", text(written)),
        number if answer == refused(number, 0) && number != 0 => format!("{kept} refused {number}"),
        _ => format!("{kept} {}", shown(answer)),
    }
}

/// The bytes that pairs of hexadecimal digits stand for; a dash stands for none.
fn bytes_of(text: &str) -> Option<Vec<u8>> {
    let digits = if text == "-" { "" } else { text };
    let pairs = digits.as_bytes().chunks(2);
    pairs.map(|pair| u8::from_str_radix(std::str::from_utf8(pair).ok()?, 16).ok()).collect()
}

fn hex(bytes: &[u8]) -> String {
    bytes.iter().map(|byte| format!("{byte:02x}")).collect()
}
