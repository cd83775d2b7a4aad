//! Counts decoded and fields encoded, in each unit, beside Howard Hinnant's date library.

use std::hint::black_box;

use independent::Fields;

use crate::case::{contender, Case, Contender, Goal, INDEPENDENT, LIBRARY};
use crate::linked::{self, answer};
use crate::native;
use crate::random::Random;

/// How many counts a run goes through.
const COUNTS: usize = 512;

const HINNANT: &str = "Hinnant's date";
const HINNANT_CHECKED: &str = "Hinnant's date, fields checked";

const NO_DATE: u32 = 18;

/// Stretches of time that a count of nanoseconds reaches, in words, with their first and last second.
pub const STRETCHES: [(&str, i64, i64); 2] =
    [("1970 to 2038", 0, 2_147_483_648), ("1700 to 2260", -8_520_336_000, 9_151_488_000)];

pub fn cases() -> Vec<Case<'static>> {
    let mut cases = Vec::new();
    for (words, from, to) in STRETCHES {
        cases.extend([
            decoding::<1>("milliseconds", words, &counts(1_000, from, to)),
            decoding::<2>("microseconds", words, &counts(1_000_000, from, to)),
            decoding::<3>("nanoseconds", words, &counts(1_000_000_000, from, to)),
            encoding::<1>("milliseconds", words, &counts(1_000, from, to)),
            encoding::<2>("microseconds", words, &counts(1_000_000, from, to)),
            encoding::<3>("nanoseconds", words, &counts(1_000_000_000, from, to)),
        ]);
    }
    cases
}

/// Counts of so many ticks in a second, anywhere between two seconds.
fn counts(ticks: i64, from: i64, to: i64) -> Vec<i64> {
    let mut random = Random::new(17);
    (0..COUNTS).map(|_| random.between(from, to) * ticks + random.between(0, ticks)).collect()
}

fn case(entry: &'static str, unit: &str, words: &str, contenders: Vec<Contender<'static>>) -> Case<'static> {
    let input = format!("{unit}, {words}");
    Case { entry, input, item: "call", items: COUNTS, goal: Goal::TimeOf(&[HINNANT, HINNANT_CHECKED]), contenders }
}

fn decoding<const UNIT: u32>(unit: &str, words: &str, counts: &[i64]) -> Case<'static> {
    for &count in counts {
        let expected = fields_of::<UNIT>(count);
        assert_eq!(independent::decode(UNIT, count).map(numbers), Ok(expected));
        let mut fields = [0; 7];
        native::decode::<UNIT>(count, &mut fields);
        assert_eq!(fields, expected);
    }
    let contenders = vec![
        contender(LIBRARY, counts, |&count| {
            let mut fields = [0; 7];
            linked::decode(UNIT, count, &mut fields);
            fields
        }),
        contender(INDEPENDENT, counts, |&count| independent::decode(black_box(UNIT), count)),
        contender(HINNANT, counts, |&count| {
            let mut fields = [0; 7];
            native::decode::<UNIT>(count, &mut fields);
            fields
        }),
    ];
    case("decode", unit, words, contenders)
}

fn encoding<const UNIT: u32>(unit: &str, words: &str, counts: &[i64]) -> Case<'static> {
    let dates: Vec<[i64; 7]> = counts.iter().map(|&count| fields_of::<UNIT>(count)).collect();
    let of_independent: Vec<Fields> = dates.iter().map(fields_from).collect();
    for (fields, &count) in dates.iter().zip(counts) {
        encodes::<UNIT>(fields, Some(count));
        assert_eq!(native::encode::<UNIT>(fields), count);
    }
    for (field, wrong) in [(1, 0), (1, 13), (2, 0), (2, 32), (3, 24), (4, 60), (5, -1), (6, 1_000_000_000)] {
        let mut fields = dates[0];
        fields[field] = wrong;
        encodes::<UNIT>(&fields, None);
    }
    let contenders = vec![
        contender(LIBRARY, &dates, |fields| {
            let mut count = [0];
            linked::encode(UNIT, fields, &mut count);
            count
        }),
        contender(INDEPENDENT, &of_independent, |fields| independent::encode(black_box(UNIT), fields)),
        contender(HINNANT, &dates, native::encode::<UNIT>),
        contender(HINNANT_CHECKED, &dates, |fields| {
            let mut count = 0;
            native::encode_checked::<UNIT>(fields, &mut count);
            count
        }),
    ];
    case("encode", unit, words, contenders)
}

/// The library's fields of a count.
fn fields_of<const UNIT: u32>(count: i64) -> [i64; 7] {
    let mut fields = [0; 7];
    assert_eq!(linked::decode(UNIT, count, &mut fields), answer(0, 7));
    fields
}

/// Those who look at the fields encode them alike, or all refuse them.
fn encodes<const UNIT: u32>(fields: &[i64; 7], expected: Option<i64>) {
    let mut count = [0];
    let said = linked::encode(UNIT, fields, &mut count);
    assert_eq!(said, if expected.is_some() { answer(0, 1) } else { answer(NO_DATE, 0) });
    assert_eq!((said == answer(0, 1)).then_some(count[0]), expected);
    assert_eq!(independent::encode(UNIT, &fields_from(fields)).ok(), expected);
    let mut count = 0;
    assert_eq!(native::encode_checked::<UNIT>(fields, &mut count).then_some(count), expected);
}

fn numbers(f: Fields) -> [i64; 7] {
    [f.year, f.month, f.day, f.hour, f.minute, f.second, f.fraction]
}

fn fields_from(&[year, month, day, hour, minute, second, fraction]: &[i64; 7]) -> Fields {
    Fields { year, month, day, hour, minute, second, fraction }
}
