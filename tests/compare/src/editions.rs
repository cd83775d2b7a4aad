//! A question asked in every edition, and the answers of the known ones held to one another.

use independent::codes::logical::{self, is_geospatial};
use independent::codes::physical;
use independent::edition::{FIRST, SECOND, THIRD};
use independent::refusal;
use independent::sheet::{slot_at, slot_start};

use crate::columns::Column;
use crate::comparison::{broken, Comparison, Difference};
use crate::sheets::total_of;
use crate::side::{fault_of, pair_refused, refusal_of, refused, shown, value_of};

/// The editions that are asked: the known ones, and numbers beside them.
pub const ALL: [u32; 5] = [0, 1, 2, 3, 4];

/// What the known editions answer, in their order, and what they leave.
type Known<T> = [(u64, T); 3];

impl Comparison<'_> {
    /// Resolves a sheet into so many lent numbers by every edition.
    pub fn resolve_in_all(&mut self, sheet: &[u8], lent: usize) -> Result<(), Difference> {
        let known = in_all(|edition| {
            let answer = self.resolve(edition, sheet, lent)?;
            Ok((answer, self.resolved(answer)))
        })?;
        held_on_sheet("resolve", &known, sheet)
    }

    /// Rewrites a sheet into so many lent bytes, from a start on, by every edition.
    pub fn rewrite_in_all(&mut self, sheet: &[u8], lent: usize, start: usize) -> Result<(), Difference> {
        let known = in_all(|edition| {
            let answer = self.rewrite(edition, sheet, lent, start)?;
            Ok((answer, self.rewritten(start, answer)))
        })?;
        held_on_sheet("rewrite", &known, sheet)
    }

    /// Compares two sheets into so many lent bytes by every edition.
    pub fn compare_in_all(&mut self, first: &[u8], second: &[u8], lent: usize) -> Result<(), Difference> {
        let known = in_all(|edition| {
            let answer = self.compare(edition, first, second, lent)?;
            Ok((answer, self.list(answer)))
        })?;
        let is_first_alone = |answer| match fault_of(answer) {
            1 => is_not_of_the_first(first, answer),
            _ => is_not_of_the_first(second, answer),
        };
        let in_third = |answer| third_of_either([first, second], answer);
        held("compare", &known, is_first_alone, in_third, || [first, second].concat())
    }

    /// Reads a value, with so many numbers lent, by every edition; answers what the first does.
    pub fn read_in_all(&mut self, column: Column, value: &[u8], lent: usize) -> Result<u64, Difference> {
        let known = in_all(|edition| Ok((self.read(edition, column, value, lent)?, self.read_words().to_vec())))?;
        held_on_column("read", &known, column, || value.to_vec())?;
        Ok(known[0].0)
    }

    /// Orders two values, both ways, by every edition.
    pub fn order_in_all(&mut self, column: Column, a: &[u8], b: &[u8]) -> Result<(), Difference> {
        let known = in_all(|edition| Ok((self.order(edition, column, a, b)?, ())))?;
        held_on_column("order", &known, column, || [a, b].concat())
    }
}

/// Asks in every edition, and gives what the known ones answer.
fn in_all<T>(mut ask: impl FnMut(u32) -> Result<(u64, T), Difference>) -> Result<Known<T>, Difference> {
    let mut known = Vec::new();
    for edition in ALL {
        let answered = ask(edition)?;
        if [FIRST, SECOND, THIRD].contains(&edition) {
            known.push(answered);
        }
    }
    Ok(known.try_into().unwrap_or_else(|_| unreachable!("three known editions are among all")))
}

/// Holds the editions to one another on a sheet.
fn held_on_sheet<T: PartialEq>(entry: &'static str, known: &Known<T>, sheet: &[u8]) -> Result<(), Difference> {
    let is_first_alone = |first| is_not_of_the_first(sheet, first);
    held(entry, known, is_first_alone, |second| third_of(sheet, second), || sheet.to_vec())
}

/// What the third edition answers, by what the second does.
enum Third {
    AsSecond,
    Refused(u64),
    /// Nothing is said of it: GEOMETRY and GEOGRAPHY are the third edition's own.
    Own,
}

/// Holds the editions to one another on a column type: in the third INT96 is none, and GEOMETRY and GEOGRAPHY are its
/// own.
fn held_on_column<T: PartialEq>(
    entry: &'static str,
    known: &Known<T>,
    column: Column,
    input: impl FnOnce() -> Vec<u8>,
) -> Result<(), Difference> {
    let [physical, _, kind, ..] = column;
    let in_third = |_| match u8::try_from(kind) {
        Ok(kind) if is_geospatial(kind) => Third::Own,
        _ if physical == physical::INT96.into() => Third::Refused(refused(refusal::COLUMN_TYPE, 0)),
        _ => Third::AsSecond,
    };
    held(entry, known, |first| is_no_column_of_the_first(column, first), in_third, input)
}

/// Holds the second edition to what the first answers and leaves, unless that is a refusal that the second need not give; and the third to
/// what the second answers and leaves, or to the refusal that it gives in place of that, where it is said.
fn held<T: PartialEq>(
    entry: &'static str,
    known: &Known<T>,
    is_first_alone: impl FnOnce(u64) -> bool,
    in_third: impl FnOnce(u64) -> Third,
    input: impl FnOnce() -> Vec<u8>,
) -> Result<(), Difference> {
    let [first, second, third] = known;
    let of_second = first == second || first.0 != second.0 && is_first_alone(first.0);
    let of_third = match in_third(second.0) {
        Third::AsSecond => third == second,
        Third::Refused(refusal) => third.0 == refusal,
        Third::Own => true,
    };
    if of_second && of_third {
        return Ok(());
    }
    let [first, second, third] = [first, second, third].map(|(answer, _)| shown(*answer));
    let what = format!("{first} by the first edition, {second} by the second, {third} by the third");
    Err(broken(entry, what, &input()))
}

/// The answer of the third edition on a sheet: a refusal for the first INT96 leaf, where the second finds nothing wrong
/// up to it, and at the leaf itself 8 and 9 come before; its own, where the second stops at the code of GEOMETRY or
/// GEOGRAPHY; else that of the second.
fn third_of(sheet: &[u8], second: u64) -> Third {
    let place = value_of(second) as usize;
    let judged = match refusal_of(second) {
        0 | refusal::OUTPUT => total_of(sheet),
        refusal::SHAPE..=refusal::MAP => place,
        refusal::SLOT if slot_at(sheet, place).is_some_and(|(_, slot)| is_geospatial(slot.logical)) => {
            return Third::Own
        }
        _ => return Third::AsSecond,
    };
    match (0..judged).find(|&node| sheet[slot_start(node)] == physical::INT96) {
        Some(leaf) => Third::Refused(refused(refusal::ANNOTATION, leaf as u32)),
        None => Third::AsSecond,
    }
}

/// The same for two sheets that are compared, with the sheet at fault.
fn third_of_either(sheets: [&[u8]; 2], second: u64) -> Third {
    let accepted = Some(0);
    let judged = match (refusal_of(second), fault_of(second)) {
        (_, 1) => [Some(second), None],
        (_, 2) => [accepted, Some(second)],
        _ => [accepted; 2],
    };
    for ((number, sheet), judged) in (1..).zip(sheets).zip(judged) {
        let Some(judged) = judged else { break };
        match third_of(sheet, judged) {
            Third::AsSecond => {}
            Third::Refused(refusal) => {
                return Third::Refused(pair_refused(number, refusal_of(refusal), value_of(refusal)))
            }
            Third::Own => return Third::Own,
        }
    }
    Third::AsSecond
}

/// Whether the first edition refuses a sheet for a leaf whose scale equals its precision.
fn is_not_of_the_first(sheet: &[u8], first: u64) -> bool {
    let leaf = slot_at(sheet, value_of(first) as usize);
    refusal_of(first) == refusal::DECIMAL
        && leaf.is_some_and(|(_, leaf)| leaf.scale == leaf.precision && leaf.precision >= 1)
}

/// Whether the first edition refuses a column type whose scale equals its precision.
fn is_no_column_of_the_first([_, _, kind, p1, p2]: Column, first: u64) -> bool {
    refusal_of(first) == refusal::COLUMN_TYPE && kind == logical::DECIMAL.into() && p1 == p2 && p1 >= 1
}
