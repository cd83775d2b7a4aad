//! Sheets resolved and sheets rewritten.
//!
//! The questions are a count, and for each sheet to resolve its edition, where that stands before each, the lengths of its title and of its
//! bytes, how many numbers are lent, the title and the bytes; then a count, and for each sheet to rewrite its edition likewise, the lengths
//! of its title and of its bytes, how many bytes are lent, the start, the title, the bytes, and what the lent bytes hold afterwards.

use independent::ROW_WIDTH;

use super::questions::{Editions, Questions};
use super::Answered;
use crate::comparison::{Comparison, Difference};
use crate::side::{refusal_of, shown, value_of, Side};

/// More numbers than the rows of the longest sheet have.
const MOST_LENT: usize = 9984;

/// A sheet, and what is asked of it in an edition.
struct Question<'a> {
    edition: u32,
    title: &'a str,
    sheet: &'a [u8],
    entry: Entry<'a>,
}

enum Entry<'a> {
    /// Resolving it into so many lent numbers.
    Resolve { lent: usize },
    /// Rewriting it from a start on into lent bytes, which then hold these.
    Rewrite { expected: &'a [u8], start: usize },
}

pub fn ask(side: &dyn Side, questions: &[u8], editions: Editions) -> Result<Answered, String> {
    let mut answered = Answered::default();
    for Question { edition, title, sheet, entry } in all(questions, editions)? {
        let answer = match entry {
            Entry::Resolve { lent } => resolved(side, edition, sheet, lent),
            Entry::Rewrite { expected, start } => rewritten(side, edition, sheet, expected, start),
        };
        answered.add(format_args!("{title}: {answer}"));
    }
    Ok(answered)
}

/// Asks both sides every question in every edition.
pub fn compare(comparison: &mut Comparison, questions: &[u8], editions: Editions) -> Result<(), String> {
    for Question { sheet, entry, .. } in all(questions, editions)? {
        match entry {
            Entry::Resolve { lent } => comparison.resolve_in_all(sheet, lent),
            Entry::Rewrite { expected, start } => comparison.rewrite_in_all(sheet, expected.len(), start),
        }
        .map_err(|difference: Difference| difference.to_string())?;
    }
    Ok(())
}

fn all(questions: &[u8], editions: Editions) -> Result<Vec<Question<'_>>, String> {
    let mut questions = Questions::new(questions, editions);
    let mut all = Vec::new();
    for _ in 0..questions.number()? {
        let edition = questions.edition()?;
        let (title, length) = (questions.length()?, questions.length()?);
        let lent = questions.length_up_to(MOST_LENT)?;
        let (title, sheet) = (questions.text(title)?, questions.bytes(length)?);
        all.push(Question { edition, title, sheet, entry: Entry::Resolve { lent } });
    }
    for _ in 0..questions.number()? {
        let edition = questions.edition()?;
        let (title, length, lent, start) =
            (questions.length()?, questions.length()?, questions.length()?, questions.length()?);
        let (title, sheet) = (questions.text(title)?, questions.bytes(length)?);
        let expected = questions.bytes(lent)?;
        all.push(Question { edition, title, sheet, entry: Entry::Rewrite { expected, start } });
    }
    questions.end()?;
    Ok(all)
}

/// A refusal or the number of nodes, whether the lent numbers that hold no row are as they were, and the rows.
fn resolved(side: &dyn Side, edition: u32, sheet: &[u8], lent: usize) -> String {
    // Every number has its own mark.
    let marks: Vec<u32> = (0..lent as u32).map(|at| 0xAAAA_AAAA_u32.wrapping_add(at.wrapping_mul(1_000_003))).collect();
    let mut rows = marks.clone();
    let answer = side.resolve(edition, sheet, &mut rows);
    let (first, written) = match refusal_of(answer) {
        0 => (format!("nodes {}", value_of(answer)), ROW_WIDTH * value_of(answer) as usize),
        _ => (shown(answer), 0),
    };
    let written = written.min(lent);
    let kept = if rows[written..] == marks[written..] { "kept" } else { "changed" };
    let lines = rows[..written].chunks(ROW_WIDTH).map(|row| {
        let numbers: Vec<String> = row.iter().map(u32::to_string).collect();
        format!("\n{}", numbers.join(" "))
    });
    format!("{first} {kept}{}", lines.collect::<String>())
}

/// A refusal or the number of bytes, whether rewriting the stretch again gives the same, and whether the lent bytes are then what they
/// should be.
fn rewritten(side: &dyn Side, edition: u32, sheet: &[u8], expected: &[u8], start: usize) -> String {
    // The marks before are the places modulo a prime.
    let mut held: Vec<u8> = (0..expected.len()).map(|at| (at % 251) as u8).collect();
    let answer = side.rewrite(edition, sheet, &mut held, start);
    let first = match refusal_of(answer) {
        0 => {
            let stretch = held.get(start..).and_then(|behind| behind.get(..value_of(answer) as usize));
            let same = stretch.is_some_and(|stretch| is_own_rewriting(side, edition, stretch));
            format!("bytes {} again {}", value_of(answer), if same { "the same" } else { "another" })
        }
        _ => shown(answer),
    };
    format!("{first} {}", if held == expected { "as expected" } else { "not as expected" })
}

/// Whether a rewritten sheet is its own rewriting.
fn is_own_rewriting(side: &dyn Side, edition: u32, sheet: &[u8]) -> bool {
    let mut again = vec![0; sheet.len()];
    side.rewrite(edition, sheet, &mut again, 0) == sheet.len() as u64 && again == sheet
}
