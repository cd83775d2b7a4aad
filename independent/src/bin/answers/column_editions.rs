//! Values by edition: those of `column` that the known editions answer otherwise, those of decimals whose scale equals their precision,
//! those of INT96, those of GEOMETRY and GEOGRAPHY, and what unknown editions are asked too.

use independent::codes::kind::INTERVAL;
use independent::codes::logical::{DECIMAL, GEOGRAPHY, GEOMETRY, STRING, TIMESTAMP, UNKNOWN};
use independent::codes::physical::{BOOLEAN, BYTE_ARRAY, FIXED, INT32, INT64, INT96};
use independent::decimal::greatest_precision;
use independent::edition::SECOND;
use independent::ColumnType;

use crate::column::{self, edges, pairs, plain, Bytes, Vector, Vectors};
use crate::editions::{all_alike, in_each, title_in, Editions, KNOWN, KNOWN_AND_OTHERS};

/// Every question in its edition.
pub fn input() -> Vec<u8> {
    let mut vectors = asked_in(&KNOWN, otherwise());
    vectors.extend(asked_in(&KNOWN, decimals()));
    vectors.extend(asked_in(&KNOWN, int96()));
    vectors.extend(asked_in(&KNOWN, geospatial()));
    vectors.extend(asked_in(&KNOWN_AND_OTHERS, of_any_edition()));
    column::packed(Editions::BeforeEach, &vectors)
}

pub fn answers(input: &[u8]) -> Vec<u8> {
    column::answers_in(Editions::BeforeEach, input)
}

fn asked_in(editions: &[u32], vectors: Vectors) -> Vec<Vector> {
    in_each(editions, &vectors.0, |vector, edition| Vector {
        edition,
        title: title_in(edition, &vector.title),
        ..vector.clone()
    })
}

/// Those of `column` that not all known editions answer alike.
fn otherwise() -> Vectors {
    let mut vectors = column::vectors();
    vectors.0.retain(|Vector { column, first, second, .. }| {
        !all_alike(|edition| column::answer_text(edition, *column, first, second.as_ref()))
    });
    vectors
}

/// Scale equal to precision on each physical type, at the least and the greatest precision: values at the edges read, and of some column
/// types ordered; and scales and precisions that no edition has.
fn decimals() -> Vectors {
    const MOST: u32 = i32::MAX as u32;
    let mut vectors = Vectors::default();
    let fixed = [1, 2, 16, 256].map(|length| (FIXED, length, greatest_precision(length as usize).expect("a length")));
    let types: Vec<_> = [(INT32, 0, 9), (INT64, 0, 18), (BYTE_ARRAY, 0, MOST)].into_iter().chain(fixed).collect();
    for &(physical, type_length, most) in &types {
        for precision in [1, most] {
            let column = decimal(physical, type_length, precision, precision);
            edges(column).iter().for_each(|value| vectors.add(column, value, None));
        }
    }
    for (physical, type_length, precision) in [(INT32, 0, 1), (INT64, 0, 18), (BYTE_ARRAY, 0, 3), (FIXED, 2, 4)] {
        pairs(&mut vectors, SECOND, decimal(physical, type_length, precision, precision));
    }
    for &(physical, type_length, most) in &types {
        let zero = Bytes::all(vec![0; if physical == INT32 { 4 } else { 8.max(type_length as usize) }]);
        for (precision, scale) in [(0, 0), (0, 1), (1, 2), (most, most + 1), (most + 1, most + 1), (u32::MAX, u32::MAX)]
        {
            vectors.add(decimal(physical, type_length, precision, scale), &zero, None);
        }
        vectors.add(decimal(physical, type_length, 0, 0), &zero, Some(&zero));
    }
    vectors
}

/// INT96 with annotations that it may have and may not, a type length and a parameter: values of a right and of wrong lengths read, and
/// ordered.
fn int96() -> Vectors {
    let mut vectors = Vectors::default();
    let of_kind = |kind: u8| ColumnType { kind: kind.into(), ..plain(INT96) };
    let timestamp = ColumnType { p1: 3, p2: 1, ..of_kind(TIMESTAMP) };
    let sized = ColumnType { type_length: 12, ..plain(INT96) };
    let marked = ColumnType { p2: 1, ..of_kind(UNKNOWN) };
    for column in [plain(INT96), of_kind(UNKNOWN), timestamp, of_kind(INTERVAL), sized, marked] {
        let values = [vec![], vec![0; 11], vec![0; 12], vec![0xFF; 12], vec![0; 13]].map(Bytes::all);
        for value in &values {
            vectors.add(column, value, None);
            vectors.add(column, value, Some(&values[2]));
        }
    }
    vectors
}

/// GEOMETRY and GEOGRAPHY on each physical type, with each edge rule and with parameters that neither has, and kinds
/// beside theirs: values at the edges of a length and of a text read, and ordered.
fn geospatial() -> Vectors {
    let mut vectors = Vectors::default();
    let of_kind = |physical, kind: u32, p1| ColumnType { kind, p1, ..plain(physical) };
    let (geometry, geography) = (u32::from(GEOMETRY), u32::from(GEOGRAPHY));
    for column in
        [of_kind(BYTE_ARRAY, geometry, 0), of_kind(BYTE_ARRAY, geography, 0), of_kind(BYTE_ARRAY, geography, 4)]
    {
        edges(column).iter().for_each(|value| vectors.add(column, value, None));
    }
    let (point, none) = (Bytes::all(vec![1; 21]), Bytes::all(vec![]));
    let both = |vectors: &mut Vectors, column| {
        vectors.add(column, &point, None);
        vectors.add(column, &point, Some(&none));
    };
    for kind in [9, 15, 16, 17, 18, 19, 20, 273, 274, 1 << 31 | 17, u32::MAX] {
        both(&mut vectors, of_kind(BYTE_ARRAY, kind, 0));
    }
    for p1 in (1..=5).chain([255, 256, 260, u32::MAX]) {
        both(&mut vectors, of_kind(BYTE_ARRAY, geometry, p1));
        both(&mut vectors, of_kind(BYTE_ARRAY, geography, p1));
    }
    for kind in [geometry, geography] {
        for p2 in [1, 2, 256, u32::MAX] {
            both(&mut vectors, ColumnType { p2, ..of_kind(BYTE_ARRAY, kind, 0) });
        }
        both(&mut vectors, ColumnType { type_length: 21, ..of_kind(BYTE_ARRAY, kind, 0) });
        for physical in (BOOLEAN..=FIXED).filter(|&physical| physical != BYTE_ARRAY).chain([8, 255]) {
            let type_length = if physical == FIXED { 21 } else { 0 };
            both(&mut vectors, ColumnType { type_length, ..of_kind(physical, kind, 0) });
        }
        // There is no order, whatever the values are.
        let longest = edges(of_kind(BYTE_ARRAY, kind, 0)).pop().expect("a value");
        for value in [&none, &point, &longest] {
            vectors.add(of_kind(BYTE_ARRAY, kind, 0), value, Some(value));
        }
    }
    vectors
}

fn decimal(physical: u8, type_length: u32, precision: u32, scale: u32) -> ColumnType {
    ColumnType { type_length, kind: DECIMAL.into(), p1: precision, p2: scale, ..plain(physical) }
}

/// Values that are read and ordered, and of each refusal: no column type, no order, a wrong length, a broken annotation.
fn of_any_edition() -> Vectors {
    let mut vectors = Vectors::default();
    let text = ColumnType { kind: STRING.into(), ..plain(BYTE_ARRAY) };
    let all = |bytes: &[u8]| Bytes::all(bytes.to_vec());
    for (column, first, second) in [
        (plain(INT32), all(&[1, 0, 0, 0]), all(&[2, 0, 0, 0])),
        (plain(BOOLEAN), all(&[1]), all(&[2])),
        (decimal(BYTE_ARRAY, 0, 2, 2), all(&[0x63]), all(&[0x64])),
        (plain(8), all(&[]), all(&[])),
        (plain(INT96), all(&[0; 12]), all(&[])),
        (plain(INT64), all(&[]), all(&[0; 9])),
        (ColumnType { kind: GEOMETRY.into(), ..plain(BYTE_ARRAY) }, all(&[0xFF]), all(&[])),
        (text, all(b"a\xFF"), all(b"ab")),
    ] {
        vectors.add(column, &first, None);
        vectors.add(column, &first, Some(&second));
    }
    vectors
}
