//! Published vectors run against a side: document 01's points, calendars, the UTF-8 examples, document 02's boxes.

use independent::boxes::WIDTH;
use independent::int96::{of_parts, SIZE};
use independent::ROW_WIDTH;

use crate::sheets::assemble;
use crate::side::{pair_refused, refused, Side};

#[path = "../../../independent/tests/published/tables.rs"]
mod tables;

use tables::*;

/// Runs every published vector against a side; answers how many there are, or the first that it answers otherwise.
pub fn run(side: &dyn Side) -> Result<usize, String> {
    let mut count = 0;
    let mut hold = |what: String, found: bool| {
        count += 1;
        if found {
            Ok(())
        } else {
            Err(what)
        }
    };
    let reingold = REINGOLD_DERSHOWITZ.map(|(y, m, d, rd)| (y, m, d, rd - REINGOLD_DERSHOWITZ_EPOCH));
    let days = HINNANT.into_iter().chain(reingold).map(|(y, m, d, day)| (1, day * 86_400_000, [y, m, d, 0, 0, 0, 0]));
    let halves =
        MEEUS.map(|(y, m, d, h, jd)| (2, (jd - MEEUS_EPOCH_HALF_DAYS) * 43_200_000_000, [y, m, d, h, 0, 0, 0]));
    for (unit, instant, fields) in days.chain(halves).chain(INSTANTS) {
        let (mut found, mut back) = ([0; 7], [0]);
        let both = side.decode(unit, instant, &mut found) == 7 && side.encode(unit, &fields, &mut back) == 1;
        hold(format!("unit {unit}, count {instant}, fields {fields:?}"), both && found == fields && back == [instant])?;
    }
    for (unit, fields, number) in NO_INSTANTS {
        let found = side.encode(unit, &fields, &mut [0]);
        hold(format!("unit {unit}, fields {fields:?}: {number}"), found == refused(number, 0))?;
    }
    for (of_day, day, expected) in INT96 {
        let right = is_int96(side, &of_parts(of_day, day), expected);
        hold(format!("INT96 of {of_day} in day {day}"), right)?;
    }
    for (year, month, day, hour, halves) in MEEUS {
        let (of_day, julian_day) = int96_of_meeus(hour, halves);
        let mut count = [0];
        let answer = side.encode(3, &[year, month, day, hour, 0, 0, 0], &mut count);
        let expected = if answer == 1 { Ok(count[0]) } else { Err(19) };
        let right = is_int96(side, &of_parts(of_day, julian_day), expected);
        hold(format!("INT96 of {of_day} in day {julian_day}, {year}-{month}-{day}"), right)?;
    }
    for (kind, points, expected) in BOXES {
        let mut bounds = [9.0; WIDTH + 1];
        let answer = side.box_of(kind, points, &mut bounds);
        let right = match expected {
            Ok(Some(expected)) => answer == WIDTH as u64 && bounds[..WIDTH] == expected && bounds[WIDTH] == 9.0,
            Ok(None) => answer == 0 && bounds == [9.0; WIDTH + 1],
            Err(number) => answer == refused(number, 0) && bounds == [9.0; WIDTH + 1],
        };
        hold(format!("box of kind {kind}, points {points:?}"), right)?;
    }
    for (kind, bounds, [x, y], expected) in INSIDE {
        let right = expected.map_or_else(|number| refused(number, 0), u64::from);
        hold(format!("kind {kind}, box {bounds:?}, point {x:?} {y:?}"), side.inside(kind, bounds, x, y) == right)?;
    }
    for edition in editions() {
        by_edition(side, edition, &mut hold)?;
    }
    Ok(count)
}

/// Whether a side turns an INT96 into a count and back, or refuses it with a number and writes nothing.
fn is_int96(side: &dyn Side, value: &[u8; SIZE], expected: Result<i64, u32>) -> bool {
    let (mut count, mut back) = ([9], [9; SIZE]);
    let answer = side.from_int96(value, &mut count);
    match expected {
        Ok(expected) => {
            let is_back = side.to_int96(expected, &mut back) == SIZE as u64 && back == *value;
            answer == 1 && count == [expected] && is_back
        }
        Err(number) => answer == refused(number, 0) && count == [9],
    }
}

/// Holds a side to what an edition answers: an unknown one refuses everything with 21.
fn by_edition(
    side: &dyn Side,
    edition: u32,
    hold: &mut impl FnMut(String, bool) -> Result<(), String>,
) -> Result<(), String> {
    let is_known = KNOWN_EDITIONS.contains(&edition);
    let unless_unknown = |answer| if is_known { answer } else { refused(21, 0) };
    let mut hold = |what: String, found: bool| hold(format!("edition {edition}, {what}"), found);
    for (text, stop) in RFC_3629.into_iter().chain(UNICODE) {
        let mut found = [9; 2];
        let answer = side.read(edition, [6, 0, 1, 0, 0], text, &mut found);
        let right = if is_known && stop == text.len() {
            answer == 5 && found == [0, text.len() as u64]
        } else {
            let in_order = |a, b| side.order(edition, [6, 0, 1, 0, 0], a, b);
            let refused_as = |value| unless_unknown(pair_refused(value, 16, stop as u32));
            answer == unless_unknown(refused(16, stop as u32))
                && found == [9; 2]
                && [in_order(text, b"a"), in_order(b"a", text), in_order(text, text)] == [1, 2, 1].map(refused_as)
        };
        hold(format!("text {text:02X?}"), right)?;
    }
    for (column, value, expected) in reads(edition) {
        let mut found = [9; 2];
        let answer = side.read(edition, column, value, &mut found);
        let right = match expected {
            Ok((case, numbers)) => answer == u64::from(case) && found == numbers,
            Err(number) => answer == refused(number, 0) && found == [9; 2],
        };
        hold(format!("column {column:?}, value {value:02X?}"), right)?;
    }
    for (column, a, b, expected) in orders(edition) {
        let right = expected.map_or_else(|number| refused(number, 0), u64::from);
        hold(format!("column {column:?}, values {a:02X?}, {b:02X?}"), side.order(edition, column, a, b) == right)?;
    }
    for (length, most) in PRECISIONS {
        let reads =
            |precision| side.read(edition, [7, length, 5, precision, 0], &vec![0; length as usize], &mut [0; 2]);
        let right = [reads(most), reads(most + 1)] == [5, refused(20, 0)].map(unless_unknown);
        hold(format!("precision {most} of {length} bytes"), right)?;
    }
    for (title, slots, expected) in sheets(edition) {
        let sheet = assemble(&slots.iter().map(slot).collect::<Vec<_>>());
        let mut rows = [9; ROW_WIDTH * 10];
        let answer = side.resolve(edition, &sheet, &mut rows);
        let right = match expected {
            Ok(expected) => answer == expected.len() as u64 && rows[..ROW_WIDTH * expected.len()] == expected.concat(),
            Err((number, place)) => answer == refused(number, place) && rows == [9; ROW_WIDTH * 10],
        };
        hold(title.to_string(), right)?;
    }
    Ok(())
}

fn slot(&(numbers, name): &Slot) -> crate::trees::Slot {
    let mut slot = [0; independent::sheet::SLOT];
    for (at, number) in numbers[..6].iter().enumerate() {
        slot[at] = *number as u8;
    }
    slot[6..8].copy_from_slice(&(numbers[6] as u16).to_le_bytes());
    for (at, number) in [8, 12, 16].into_iter().zip(&numbers[7..]) {
        slot[at..at + 4].copy_from_slice(&(*number as i32).to_le_bytes());
    }
    slot[20] = name.len() as u8;
    slot[24..24 + name.len()].copy_from_slice(name.as_bytes());
    slot
}
