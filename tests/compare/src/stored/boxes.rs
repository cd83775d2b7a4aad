//! Boxes of points, and points inside boxes: a line has the question and, behind a colon, the answer. A bound of zero
//! has no sign there.

use super::Answered;
use crate::side::{refusal_of, refused, shown, Side};

/// What lent numbers hold before.
const MARK: u64 = 0x2B2B_2B2B_2B2B_2B2B;
/// The numbers of a box.
const WIDTH: usize = 4;
/// More numbers than any question lends.
const MOST_LENT: usize = 1_000;

pub fn ask(side: &dyn Side, lines: &[u8]) -> Result<Answered, String> {
    super::ask_lines(lines, |question| line_of(side, question))
}

/// The line of `box KIND LENT` and coordinates, or of `inside KIND` with a box and a point.
fn line_of(side: &dyn Side, question: &str) -> Option<String> {
    let mut words = question.split(' ');
    let (entry, kind) = (words.next()?, words.next()?.parse().ok()?);
    let answer = match entry {
        "box" => {
            let lent = words.next()?.parse().ok().filter(|&lent| lent <= MOST_LENT)?;
            found(side, kind, &numbers(words)?, lent)
        }
        "inside" => {
            let [xmin, xmax, ymin, ymax, x, y] = numbers(words)?.try_into().ok()?;
            tested(side, kind, [xmin, xmax, ymin, ymax], x, y)
        }
        _ => return None,
    };
    Some(format!("{question}: {answer}"))
}

/// The doubles of words that have the digits of their bits.
fn numbers<'a>(words: impl Iterator<Item = &'a str>) -> Option<Vec<f64>> {
    words.map(|word| u64::from_str_radix(word, 16).ok().map(f64::from_bits)).collect()
}

/// The box that was written, or that there is none, or a refusal; and whether the rest of what was lent is as it was.
fn found(side: &dyn Side, kind: u32, points: &[f64], lent: usize) -> String {
    let mut out = vec![f64::from_bits(MARK); lent];
    let answer = side.box_of(kind, points, &mut out);
    let written = if answer == WIDTH as u64 { WIDTH.min(lent) } else { 0 };
    let (bounds, rest) = out.split_at(written);
    let kept = if rest.iter().all(|number| number.to_bits() == MARK) { "kept" } else { "changed" };
    let told = match refusal_of(answer) {
        // A zero and a positive zero have the sum without a sign.
        0 if bounds.len() == WIDTH => bounds.iter().map(|bound| format!(" {:016x}", (bound + 0.0).to_bits())).collect(),
        0 if answer == 0 => " none".to_string(),
        _ => format!(" {}", refusal(answer)),
    };
    format!("{kept}{told}")
}

fn tested(side: &dyn Side, kind: u32, bounds: [f64; WIDTH], x: f64, y: f64) -> String {
    match side.inside(kind, bounds, x, y) {
        0 => "no".to_string(),
        1 => "yes".to_string(),
        answer => refusal(answer),
    }
}

/// A refusal, which has place 0.
fn refusal(answer: u64) -> String {
    match refusal_of(answer) {
        number if number != 0 && answer == refused(number, 0) => format!("refused {number}"),
        _ => shown(answer),
    }
}
