//! Decimals read, which holds them to their precision, and ordered, which reads both first.

use std::hint::black_box;

use independent::codes::physical::{BYTE_ARRAY, FIXED, INT32, INT64};
use independent::codes::{kind, logical};
use independent::decimal::greatest_precision;

use crate::case::{contender, Case, Contender, Goal, INDEPENDENT, LIBRARY};
use crate::integers;
use crate::linked::{self, answer, answer_of, ColumnType, EDITION};
use crate::random::Random;

/// How many values a run goes through.
const VALUES: usize = 256;

/// The greatest precision that a column can have.
const MOST: u32 = 0x7FFF_FFFF;

const INTEGER: &str = "integer comparison";
const AS_BYTES: &str = "comparison of bytes";

const BYTES: u32 = 5;
const BREAKS_ANNOTATION: u32 = 16;

pub fn cases() -> Vec<Case<'static>> {
    let mut cases = Vec::new();
    cases.push(plain_int64());
    cases.extend([(INT32, 4, 1), (INT32, 4, 9), (INT64, 8, 1), (INT64, 8, 9), (INT64, 8, 18)].map(whole));
    for length in [1, 4, 8, 16, 32, 256] {
        let precision = greatest_precision(length).expect("a length");
        cases.push(reading(FIXED, length, precision, "all bytes needed", whole_length(length, precision)));
    }
    cases.push(reading(FIXED, 16, 38, "amounts below 10^12", amounts()));
    // The table decides 1, 39 and above by the length alone; 36 to 38 are held against a power of ten.
    for precision in [1, 36, 37, 38, 39, 100, 616, MOST] {
        let within = if precision < 36 { 38 } else { precision };
        cases.push(reading(BYTE_ARRAY, 16, precision, "all bytes needed", whole_length(16, within)));
    }
    cases.push(reading(BYTE_ARRAY, 16, 38, "amounts below 10^12", amounts()));
    for length in [1, 4, 8, 16, 32, 256] {
        let precision = greatest_precision(length).expect("a length");
        let values = whole_length(length, precision);
        cases.push(ordering(FIXED, length, precision, "any two", pairs(&values, false)));
        if length == 16 {
            cases.push(ordering(FIXED, length, precision, "last byte differs", pairs(&values, true)));
            cases.push(ordering(FIXED, length, precision, "amounts below 10^12", pairs(&amounts(), false)));
            cases.push(ordering(BYTE_ARRAY, length, precision, "any two", pairs(&values, false)));
            cases.push(ordering(BYTE_ARRAY, length, precision, "last byte differs", pairs(&values, true)));
            cases.push(ordering(BYTE_ARRAY, length, MOST, "last byte differs", pairs(&values, true)));
        }
    }
    cases
}

type Value = Vec<u8>;

/// Numbers that need all of so many bytes and are within a precision.
fn whole_length(length: usize, precision: u32) -> Vec<Value> {
    let mut random = Random::new(length as u64);
    let column = column_of(BYTE_ARRAY, length, precision);
    let mut values = Vec::new();
    while values.len() < VALUES {
        let value = if length == 16 && precision < 39 {
            // From 2^119 on, which needs 16 bytes.
            let least = 1 << 119;
            let size = least + random.wide() % (10u128.pow(precision) - least);
            let sign = if random.number().is_multiple_of(2) { 1 } else { -1 };
            (sign * size as i128).to_be_bytes().to_vec()
        } else {
            let mut value = vec![0; length];
            random.fill(&mut value);
            value
        };
        let needed = length == 1 || !matches!(value[..2], [0x00, 0x00..=0x7F] | [0xFF, 0x80..=0xFF]);
        if needed && independent::read(EDITION, column, &value).is_ok() {
            values.push(value);
        }
    }
    values
}

/// Amounts of money as 16 bytes: most of the bytes repeat the sign.
fn amounts() -> Vec<Value> {
    let mut random = Random::new(12);
    let most = 1_000_000_000_000;
    (0..VALUES).map(|_| i128::from(random.between(1 - most, most)).to_be_bytes().to_vec()).collect()
}

/// Each value beside the next, or beside itself with another last byte.
fn pairs(values: &[Value], alike: bool) -> Vec<(Value, Value)> {
    let other = |at: usize| {
        let mut other = values[if alike { at } else { (at + 1) % values.len() }].clone();
        if alike {
            *other.last_mut().expect("a byte") ^= 1;
        }
        other
    };
    (0..values.len()).map(|at| (values[at].clone(), other(at))).collect()
}

fn type_of(physical: u8, length: usize, precision: u32) -> ColumnType {
    let type_length = if physical == FIXED { length as u32 } else { 0 };
    [physical.into(), type_length, logical::DECIMAL.into(), precision, 0]
}

fn column([physical, type_length, kind, p1, p2]: ColumnType) -> independent::ColumnType {
    independent::ColumnType { physical, type_length, kind, p1, p2 }
}

fn column_of(physical: u8, length: usize, precision: u32) -> independent::ColumnType {
    column(type_of(physical, length, precision))
}

fn case(entry: &'static str, input: String, goal: Goal, contenders: Vec<Contender<'static>>) -> Case<'static> {
    Case { entry, input, item: "call", items: VALUES, goal, contenders }
}

/// What is to be reached for decimals of so many bytes.
fn goal_of(length: usize) -> Goal {
    if length == 16 {
        Goal::Decimal
    } else {
        Goal::None
    }
}

/// What a physical type of bytes is called.
fn bytes_of(physical: u8, length: usize) -> String {
    match physical {
        INT32 => "INT32".into(),
        INT64 => "INT64".into(),
        BYTE_ARRAY => format!("BYTE_ARRAY of {length}"),
        _ => format!("FIXED {length}"),
    }
}

/// An INT64 without annotation: what reading costs before there is anything to hold a value to.
fn plain_int64() -> Case<'static> {
    let plain = [INT64.into(), 0, kind::PLAIN_LEAF.into(), 0, 0];
    let mut random = Random::new(64);
    let values: Vec<Value> = (0..VALUES).map(|_| random.number().to_le_bytes().to_vec()).collect();
    for value in &values {
        read_alike(plain, value);
    }
    case("read", "INT64 without annotation".into(), Goal::None, readers(plain, &values))
}

/// A DECIMAL as INT32 or INT64.
fn whole((physical, length, precision): (u8, usize, u32)) -> Case<'static> {
    let given = type_of(physical, length, precision);
    let mut random = Random::new(precision.into());
    let bound = 10i64.pow(precision);
    let values: Vec<Value> =
        (0..VALUES).map(|_| random.between(1 - bound, bound).to_le_bytes()[..length].to_vec()).collect();
    for value in &values {
        assert!(read_alike(given, value) && integers::fits_little(value, precision));
    }
    let mut beyond = bound.to_le_bytes()[..length].to_vec();
    assert!(!read_alike(given, &beyond) && !integers::fits_little(&beyond, precision));
    beyond[0] ^= 1;
    assert_eq!(read_alike(given, &beyond), integers::fits_little(&beyond, precision));
    let mut contenders = readers(given, &values);
    contenders.push(contender(INTEGER, &values, move |value| integers::fits_little(value, black_box(precision))));
    let goal = Goal::Precision(if physical == INT32 { "INT32" } else { "INT64" });
    case("read", format!("DECIMAL({precision}) {}", bytes_of(physical, length)), goal, contenders)
}

fn reading(physical: u8, length: usize, precision: u32, words: &str, values: Vec<Value>) -> Case<'static> {
    let given = type_of(physical, length, precision);
    let is_integer = length <= 16;
    for value in &values {
        let fits = read_alike(given, value);
        assert!(!is_integer || integers::fits_big(value, precision) == fits);
    }
    let mut contenders = readers(given, &values);
    if is_integer {
        contenders.push(contender(INTEGER, &values, move |value| integers::fits_big(value, black_box(precision))));
    }
    let input = format!("DECIMAL({precision}) {}: {words}", bytes_of(physical, length));
    case("read", input, goal_of(length), contenders)
}

fn ordering(physical: u8, length: usize, precision: u32, words: &str, pairs: Vec<(Value, Value)>) -> Case<'static> {
    let given = type_of(physical, length, precision);
    for (a, b) in &pairs {
        let expected = integers::order_bytes(a, b);
        assert!(length > 16 || integers::order_big(a, b) == expected);
        let number = (expected as i8 + 1) as u32;
        assert_eq!(linked::order(EDITION, given, a, b), answer(0, number));
        let found = independent::order(EDITION, column(given), a, b).map_err(|refused| refused.refusal);
        assert_eq!(answer_of(found.map(|order| order as u32)), answer(0, number));
    }
    let mut contenders = vec![
        contender(LIBRARY, &pairs, move |(a, b)| linked::order(EDITION, given, a, b)),
        contender(INDEPENDENT, &pairs, move |(a, b)| {
            independent::order(black_box(EDITION), black_box(column(given)), a, b)
        }),
    ];
    contenders.push(match length {
        0..=16 => contender(INTEGER, &pairs, |(a, b)| integers::order_big(a, b)),
        _ => contender(AS_BYTES, &pairs, |(a, b)| integers::order_bytes(a, b)),
    });
    let input = format!("DECIMAL({precision}) {}: {words}", bytes_of(physical, length));
    case("order", input, goal_of(length), contenders)
}

/// The library and the independent reader on values of a column.
fn readers(given: ColumnType, values: &[Value]) -> Vec<Contender<'static>> {
    vec![
        contender(LIBRARY, values, move |value| {
            let mut out = [0; 2];
            let said = linked::read(EDITION, given, value, &mut out);
            // The words one by one, as a caller takes them: one load of both would wait for the two stores before it.
            said ^ black_box(out[0]) ^ black_box(out[1])
        }),
        contender(INDEPENDENT, values, move |value| {
            independent::read(black_box(EDITION), black_box(column(given)), value)
        }),
    ]
}

/// Whether a value is read, by the library and by the independent reader alike.
fn read_alike(given: ColumnType, value: &[u8]) -> bool {
    let mut out = [0; 2];
    let said = linked::read(EDITION, given, value, &mut out);
    match independent::read(EDITION, column(given), value) {
        Ok(independent::Value::Signed(number)) => assert_eq!((said, out), (answer(0, 1), [number as u64, 0])),
        Ok(independent::Value::Bytes { start, length }) => {
            assert_eq!((said, out), (answer(0, BYTES), [start as u64, length as u64]))
        }
        Ok(value) => panic!("{value:?} is no such value"),
        Err(refusal) => {
            assert_eq!(said, answer(refusal.number, refusal.place));
            assert_eq!(said, answer(BREAKS_ANNOTATION, 0));
        }
    }
    said >> 32 == 0
}
