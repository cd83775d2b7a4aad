//! Document 01's examples and fixed points and published vectors, run against this reader.

mod tables;

use independent::boxes::bounds_of;
use independent::edition::FIRST;
use independent::int96::{count_of, of_parts, value_of};
use independent::sheet::{assemble, Sheet, Slot, BLOCK};
use independent::{
    decimal, decode, encode, inside, order, read, resolve, rewrite, utf8, ColumnType, Fields, PairRefusal, Refusal,
    Value, ROW_WIDTH,
};
use tables::*;

fn fields([year, month, day, hour, minute, second, fraction]: [i64; 7]) -> Fields {
    Fields { year, month, day, hour, minute, second, fraction }
}

fn both_ways(unit: u32, count: i64, expected: Fields) {
    assert_eq!(decode(unit, count), Ok(expected));
    assert_eq!(encode(unit, &expected), Ok(count));
}

fn column([physical, type_length, kind, p1, p2]: Column) -> ColumnType {
    ColumnType { physical, type_length, kind, p1, p2 }
}

fn refused(number: u32) -> Refusal {
    Refusal { number, place: 0 }
}

#[test]
fn days_of_the_calendar() {
    let reingold = REINGOLD_DERSHOWITZ.map(|(y, m, d, rd)| (y, m, d, rd - REINGOLD_DERSHOWITZ_EPOCH));
    for (year, month, day, number) in HINNANT.into_iter().chain(reingold) {
        both_ways(1, number * 86_400_000, fields([year, month, day, 0, 0, 0, 0]));
    }
    for (year, month, day, hour, halves) in MEEUS {
        both_ways(2, (halves - MEEUS_EPOCH_HALF_DAYS) * 43_200_000_000, fields([year, month, day, hour, 0, 0, 0]));
    }
}

#[test]
fn instants() {
    for (unit, count, expected) in INSTANTS {
        both_ways(unit, count, fields(expected));
    }
    for (unit, given, number) in NO_INSTANTS {
        assert_eq!(encode(unit, &fields(given)), Err(refused(number)));
    }
}

#[test]
fn int96_times() {
    for (of_day, day, expected) in INT96 {
        let value = of_parts(of_day, day);
        assert_eq!(count_of(&value), expected.map_err(refused), "{of_day} in day {day}");
        if let Ok(count) = expected {
            assert_eq!(value_of(count), value);
        }
    }
    for (year, month, day, hour, halves) in MEEUS {
        let (of_day, julian_day) = int96_of_meeus(hour, halves);
        let expected = encode(3, &fields([year, month, day, hour, 0, 0, 0]));
        assert_eq!(count_of(&of_parts(of_day, julian_day)), expected, "{year}-{month}-{day}");
    }
}

#[test]
fn boxes_of_points() {
    for (kind, points, expected) in BOXES {
        assert_eq!(bounds_of(kind, points), expected.map_err(refused), "{kind}: {points:?}");
    }
    for (kind, bounds, [x, y], expected) in INSIDE {
        assert_eq!(inside(kind, bounds, x, y), expected.map_err(refused), "{kind}: {bounds:?}, {x} {y}");
    }
}

#[test]
fn texts() {
    for (text, stop) in RFC_3629.into_iter().chain(UNICODE) {
        assert_eq!(utf8::valid_up_to(text), stop, "{text:02X?}");
    }
}

#[test]
fn values() {
    for edition in editions() {
        for (given, value, expected) in reads(edition) {
            let found = read(edition, column(given), value).map(|value| match value {
                Value::Truth(truth) => (0, [truth.into(), 0]),
                Value::Signed(number) => (1, [number as u64, 0]),
                Value::Unsigned(number) => (2, [number, 0]),
                Value::Float(float) => (3, [float.to_bits().into(), 0]),
                Value::Double(double) => (4, [double.to_bits(), 0]),
                Value::Bytes { start, length } => (5, [start as u64, length as u64]),
            });
            assert_eq!(found, expected.map_err(refused), "edition {edition}: {given:?} {value:02X?}");
        }
    }
}

#[test]
fn ordered_values() {
    for edition in editions() {
        for (given, a, b, expected) in orders(edition) {
            let found = order(edition, column(given), a, b).map(|order| order as u32);
            let expected = expected.map_err(|number| PairRefusal::of_neither(refused(number)));
            assert_eq!(found, expected, "edition {edition}: {given:?} {a:02X?} {b:02X?}");
        }
    }
}

#[test]
fn precisions() {
    for (length, most) in PRECISIONS {
        assert_eq!(decimal::greatest_precision(length as usize), Some(most));
    }
}

fn slot(
    ([physical, repetition, converted, logical, a, b, children, type_length, scale, precision], name): tables::Slot,
) -> Slot<'static> {
    Slot {
        physical: physical as u8,
        repetition: repetition as u8,
        converted: converted as u8,
        logical: logical as u8,
        a: a as u8,
        b: b as u8,
        children: children as u16,
        type_length: type_length as i32,
        scale: scale as i32,
        precision: precision as i32,
        name_length: name.len() as u8,
        name: name.as_bytes(),
    }
}

/// Every sheet, with what an edition answers.
fn every_sheet() -> impl Iterator<Item = (u32, String, Vec<u8>, Rows)> {
    editions().flat_map(|edition| {
        sheets(edition).map(move |(title, slots, expected)| {
            let sheet = assemble(&slots.iter().map(|&given| slot(given)).collect::<Vec<_>>());
            (edition, format!("edition {edition}: {title}"), sheet, expected)
        })
    })
}

#[test]
fn resolved_sheets() {
    for (edition, title, sheet, expected) in every_sheet() {
        let mut rows = [0; ROW_WIDTH * 10];
        match (resolve(edition, &sheet, &mut rows), expected) {
            (Ok(count), Ok(expected)) => {
                assert_eq!(count as usize, expected.len(), "{title}");
                assert_eq!(rows[..ROW_WIDTH * expected.len()], expected.concat(), "{title}");
            }
            (Err(refusal), Err((number, place))) => assert_eq!(refusal, Refusal { number, place }, "{title}"),
            (found, _) => panic!("{title}: {found:?}"),
        }
    }
}

/// The rewritten sheet has the same rows, and rewriting it again changes no byte.
#[test]
fn rewritten_sheets() {
    for (edition, title, sheet, expected) in every_sheet() {
        let mut made = vec![0; sheet.len()];
        let Ok(rows) = expected else {
            assert!(rewrite(edition, &sheet, &mut made, 0).is_err(), "{title}");
            continue;
        };
        assert_eq!(rewrite(edition, &sheet, &mut made, 0), Ok(sheet.len() as u32), "{title}");
        let mut again = vec![0; made.len()];
        rewrite(edition, &made, &mut again, 0).unwrap();
        assert_eq!(again, made, "{title}");
        let mut resolved = [0; ROW_WIDTH * 10];
        resolve(edition, &made, &mut resolved).unwrap();
        assert_eq!(resolved[..ROW_WIDTH * rows.len()], rows.concat(), "{title}");
    }
}

/// Byte 509 equal to 255, all others zero, has the check 64,529; a block of zeros then fails at its header.
#[test]
fn check_of_one_byte() {
    let mut block = [0; BLOCK];
    block[509] = 255;
    block[510..].copy_from_slice(&64_529u16.to_le_bytes());
    assert_eq!(Sheet::open(FIRST, &block).unwrap_err(), Refusal { number: 3, place: 0 });
    block[510] += 1;
    assert_eq!(Sheet::open(FIRST, &block).unwrap_err(), Refusal { number: 2, place: 0 });
}
