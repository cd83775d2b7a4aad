//! Two sheets compared.
//!
//! The questions are a count, and for each its edition, the lengths of its title and of the two sheets, how many bytes are lent, the title
//! and the bytes of the sheets.

use independent::compare::{Entry, ENTRY};

use super::questions::{Editions, Questions};
use super::Answered;
use crate::comparison::Comparison;
use crate::lists;
use crate::side::{refusal_of, shown, value_of, Side};

/// More bytes than the list of any two sheets that are stored has.
const MOST_LENT: usize = 1 << 20;

/// Two sheets to compare in an edition into so many lent bytes.
struct Question<'a> {
    edition: u32,
    title: &'a str,
    first: &'a [u8],
    second: &'a [u8],
    lent: usize,
}

pub fn ask(side: &dyn Side, questions: &[u8]) -> Result<Answered, String> {
    let mut answered = Answered::default();
    for Question { edition, title, first, second, lent } in all(questions)? {
        answered.add(format_args!("{title}: {}", compared(side, edition, first, second, lent)));
    }
    Ok(answered)
}

/// Asks both sides every question in every edition, and holds the lists to what is said of them.
pub fn compare(comparison: &mut Comparison, questions: &[u8]) -> Result<(), String> {
    for Question { first, second, lent, .. } in all(questions)? {
        comparison
            .compare_in_all(first, second, lent)
            .and_then(|()| lists::compare(comparison, [first, second], |needed| needed))
            .map_err(|difference| difference.to_string())?;
    }
    Ok(())
}

fn all(questions: &[u8]) -> Result<Vec<Question<'_>>, String> {
    let mut questions = Questions::new(questions, Editions::BeforeEach);
    let mut all = Vec::new();
    for _ in 0..questions.number()? {
        let edition = questions.edition()?;
        let (title, first, second) = (questions.length()?, questions.length()?, questions.length()?);
        let lent = questions.length_up_to(MOST_LENT)?;
        let title = questions.text(title)?;
        let (first, second) = (questions.bytes(first)?, questions.bytes(second)?);
        all.push(Question { edition, title, first, second, lent });
    }
    questions.end()?;
    Ok(all)
}

/// A refusal or the number of entries, whether the lent bytes that hold no entry are as they were, and the entries.
fn compared(side: &dyn Side, edition: u32, first: &[u8], second: &[u8], lent: usize) -> String {
    // The marks before are the places modulo a prime.
    let marks: Vec<u8> = (0..lent).map(|at| (at % 251) as u8).collect();
    let mut out = marks.clone();
    let answer = side.compare(edition, first, second, &mut out);
    let (told, written) = match refusal_of(answer) {
        0 => (format!("entries {}", value_of(answer)), ENTRY * value_of(answer) as usize),
        _ => (shown(answer), 0),
    };
    let written = written.min(lent);
    let kept = if out[written..] == marks[written..] { "kept" } else { "changed" };
    format!("{told} {kept}{}", out[..written].chunks_exact(ENTRY).map(entry_text).collect::<String>())
}

/// An entry: its code, the byte that is zero, its node, and what each sheet holds.
fn entry_text(entry: &[u8]) -> String {
    let Entry { code, node, first, second } = Entry::parse(entry.try_into().expect("a whole entry"));
    format!("\n{code} {} {node} {} {}", entry[1], content_text(&first), content_text(&second))
}

/// Two digits for each byte, without the zeros at the end; nothing but zeros is a dash.
fn content_text(content: &[u8]) -> String {
    let length = content.iter().rposition(|&byte| byte != 0).map_or(0, |last| last + 1);
    match length {
        0 => "-".to_string(),
        _ => content[..length].iter().map(|byte| format!("{byte:02x}")).collect(),
    }
}
