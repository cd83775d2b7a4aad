//! Every kind of answer through the safe functions but comparison, and what a refusal leaves unchanged.

mod sheets;

use std::fs;

use griffeljol::codes::{converted, edge_rule, kind, physical, unit};
use griffeljol::{box_of, decode, encode, from_int96, inside, order, read, resolve, rewrite, rows, to_int96};
use griffeljol::{BoundingBox, ColumnType, Edition, Fields, Order, OrderRefusal, Refusal, Row, Slot, Value, ROW_WIDTH};
use sheets::{leaf, root, sheet};

fn sample() -> Vec<u8> {
    fs::read("../crates/schema_rows/stdin").expect("the sample sheet")
}

/// A column type without parameters.
fn column(physical: u32, kind: u32) -> ColumnType {
    ColumnType { physical, type_length: 0, kind, p1: 0, p2: 0 }
}

/// A refusal without a place.
fn refused<T>(number: u8) -> Result<T, Refusal> {
    Err(Refusal { number, place: 0 })
}

#[test]
fn rows_are_those_of_resolving() {
    let sheet = sample();
    let mut numbers = [7; 4 * ROW_WIDTH + 1];
    assert_eq!(resolve(Edition::FIRST, &sheet, &mut numbers), Ok(4));
    let (written, behind) = numbers.split_at(4 * ROW_WIDTH);
    assert_eq!(behind, [7]);
    let rows = rows(Edition::FIRST, &sheet).expect("the sample is accepted");
    assert_eq!(rows.iter().flat_map(Row::numbers).collect::<Vec<_>>(), written);
    let last = Row {
        physical: 6,
        type_length: 0,
        repetition: 1,
        kind: 1,
        p1: 0,
        p2: 0,
        parent: 2,
        end: 4,
        role: 2,
        definition_level: 2,
        repetition_level: 1,
    };
    assert_eq!(rows[3], last);
    assert_eq!(Row::from(last.numbers()), last);
}

#[test]
fn refused_sheets_write_nothing() {
    let sheet = sample();
    let mut numbers = [7; 4 * ROW_WIDTH - 1];
    assert_eq!(resolve(Edition::FIRST, &sheet, &mut numbers), refused(14));
    assert_eq!(numbers, [7; 4 * ROW_WIDTH - 1]);
    let mut out = [7; 600];
    assert_eq!(rewrite(Edition::FIRST, &sheet, &mut out, 89), refused(14));
    assert_eq!(rewrite(Edition::FIRST, &sheet, &mut out, usize::MAX), refused(14));
    assert_eq!(rewrite(Edition::FIRST, &[], &mut out, 0), refused(1));
    assert_eq!(out, [7; 600]);
    assert_eq!(rewrite(Edition::FIRST, &sheet, &mut out, 88), Ok(512));
    assert_eq!(out[..88], [7; 88]);
    let mut wrong = sheet;
    wrong[1] = 1;
    assert_eq!(rows(Edition::FIRST, &wrong), refused(2));
}

#[test]
fn a_refusal_has_its_place() {
    // The check of the first block is right, that of the second is not.
    let sheet = [sample(), vec![1; 512]].concat();
    assert_eq!(rows(Edition::FIRST, &sheet), Err(Refusal { number: 2, place: 1 }));
}

#[test]
fn each_case_of_a_value() {
    assert_eq!(read(Edition::FIRST, column(physical::BOOLEAN, 0), &[1]), Ok(Value::Truth(true)));
    assert_eq!(read(Edition::FIRST, column(physical::BOOLEAN, 0), &[0]), Ok(Value::Truth(false)));
    assert_eq!(
        read(Edition::FIRST, column(physical::INT32, kind::DATE), &[0xFE, 0xFF, 0xFF, 0xFF]),
        Ok(Value::Signed(-2))
    );
    assert_eq!(read(Edition::FIRST, column(physical::INT64, 0), &i64::MIN.to_le_bytes()), Ok(Value::Signed(i64::MIN)));
    let uint64 = ColumnType { p1: 64, ..column(physical::INT64, kind::INTEGER) };
    assert_eq!(read(Edition::FIRST, uint64, &[0xFF; 8]), Ok(Value::Unsigned(u64::MAX)));
    assert_eq!(read(Edition::FIRST, column(physical::FLOAT, 0), &(-1.5f32).to_le_bytes()), Ok(Value::Float(-1.5)));
    assert_eq!(read(Edition::FIRST, column(physical::DOUBLE, 0), &1e300f64.to_le_bytes()), Ok(Value::Double(1e300)));
    let Ok(Value::Double(nan)) = read(Edition::FIRST, column(physical::DOUBLE, 0), &[0xFF; 8]) else {
        panic!("a DOUBLE")
    };
    assert_eq!(nan.to_bits(), 0x7FF8_0000_0000_0000);
    assert_eq!(read(Edition::FIRST, column(physical::INT96, 0), &[0; 12]), Ok(Value::Bytes { start: 0, length: 12 }));
    assert_eq!(
        read(Edition::FIRST, column(physical::BYTE_ARRAY, kind::STRING), b""),
        Ok(Value::Bytes { start: 0, length: 0 })
    );
    assert_eq!(read(Edition::FIRST, column(physical::INT32, 0), &[0; 3]), refused(15));
    assert_eq!(read(Edition::FIRST, column(physical::BYTE_ARRAY, kind::STRING), &[0xFF]), refused(16));
    assert_eq!(read(Edition::FIRST, column(physical::GROUP, kind::PLAIN_GROUP), &[]), refused(20));
}

#[test]
fn text_is_refused_at_its_byte() {
    for kind in [kind::STRING, kind::ENUM, kind::JSON] {
        let text = column(physical::BYTE_ARRAY, kind);
        assert_eq!(read(Edition::FIRST, text, b"key \xE2\x82"), Err(Refusal { number: 16, place: 4 }));
        let mut long = [b'a'; 65_536];
        long[65_535] = 0x80;
        assert_eq!(read(Edition::FIRST, text, &long), Err(Refusal { number: 16, place: 65_535 }));
    }
    let decimal = ColumnType { p1: 2, ..column(physical::BYTE_ARRAY, kind::DECIMAL) };
    assert_eq!(read(Edition::FIRST, decimal, &[0, 0x64]), refused(16));
}

#[test]
fn each_answer_of_an_order() {
    let double = column(physical::DOUBLE, 0);
    let ordered = |a: f64, b: f64| order(Edition::FIRST, double, &a.to_le_bytes(), &b.to_le_bytes());
    assert_eq!(ordered(-1.0, 1.0), Ok(Order::Less));
    assert_eq!(ordered(-0.0, 0.0), Ok(Order::Equal));
    assert_eq!(ordered(f64::INFINITY, 1.0), Ok(Order::Greater));
    assert_eq!(ordered(f64::NAN, 1.0), Ok(Order::Unordered));
    let refused = |number, place, value| Err(OrderRefusal { refusal: Refusal { number, place }, value });
    assert_eq!(order(Edition::FIRST, column(physical::GROUP, 0), &[], &[]), refused(20, 0, 0));
    assert_eq!(order(Edition::FIRST, column(physical::INT96, 0), &[], &[]), refused(17, 0, 0));
    assert_eq!(order(Edition::FIRST, double, &[], &[0; 8]), refused(15, 0, 1));
    assert_eq!(order(Edition::FIRST, double, &[0; 8], &[]), refused(15, 0, 2));
    let text = column(physical::BYTE_ARRAY, kind::STRING);
    assert_eq!(order(Edition::FIRST, text, b"a\xFF", b"ab"), refused(16, 1, 1));
    assert_eq!(order(Edition::FIRST, text, b"ab", b"a\xFF"), refused(16, 1, 2));
    assert_eq!(order(Edition::FIRST, text, b"ab\xFF", b"a\xFF"), refused(16, 2, 1));
    let decimal = ColumnType { p1: 2, ..column(physical::BYTE_ARRAY, kind::DECIMAL) };
    assert_eq!(order(Edition::FIRST, decimal, &[0x63], &[0x64]), refused(16, 0, 2));
    assert_eq!(order(Edition::FIRST, decimal, &[0x64], &[]), refused(16, 0, 1));
    assert_eq!(order(Edition::FIRST, decimal, &[0x63], &[]), refused(15, 0, 2));
}

#[test]
fn timestamps_there_and_back() {
    for unit in [unit::MILLIS, unit::MICROS, unit::NANOS] {
        for count in [i64::MIN, -1, 0, 951_782_400_000, i64::MAX] {
            let fields = decode(unit, count).expect("every count decodes");
            assert_eq!(encode(unit, &fields), Ok(count));
        }
    }
    let fields = Fields { year: i64::MAX, month: 1, day: 1, hour: 0, minute: 0, second: 0, fraction: 0 };
    assert_eq!(encode(unit::NANOS, &fields), refused(19));
    assert_eq!(encode(unit::NANOS, &Fields { month: 13, ..fields }), refused(18));
    assert_eq!(encode(4, &Fields { month: 13, ..fields }), refused(20));
    assert_eq!(decode(0, 0), refused(20));
}

/// A root with one required leaf, a DECIMAL of precision 3 and this scale on INT32.
fn decimal_sheet(scale: i32) -> Vec<u8> {
    sheet(&[root("r", 1), Slot { logical: kind::DECIMAL, scale, precision: 3, ..leaf("n", physical::INT32) }])
}

#[test]
fn the_second_and_the_third_edition_let_the_scale_equal_the_precision() {
    let sheet = decimal_sheet(3);
    assert_eq!(rows(Edition::FIRST, &sheet), Err(Refusal { number: 11, place: 1 }));
    let accepted = rows(Edition::SECOND, &sheet).expect("the second edition accepts it");
    assert_eq!((accepted[1].p1, accepted[1].p2), (3, 3));
    let mut out = [7; 512];
    assert_eq!(rewrite(Edition::FIRST, &sheet, &mut out, 0), Err(Refusal { number: 11, place: 1 }));
    assert_eq!(out, [7; 512]);
    assert_eq!(rewrite(Edition::SECOND, &sheet, &mut out, 0), Ok(512));
    assert_eq!(rows(Edition::SECOND, &out).as_ref(), Ok(&accepted));
    assert_eq!(rows(Edition::THIRD, &sheet), Ok(accepted));
    let lower = decimal_sheet(2);
    assert_eq!(rows(Edition::SECOND, &lower), rows(Edition::FIRST, &lower));
    for edition in [Edition::FIRST, Edition::SECOND, Edition::THIRD] {
        assert_eq!(rows(edition, &decimal_sheet(4)), Err(Refusal { number: 11, place: 1 }));
    }
    let fraction = ColumnType { p1: 2, p2: 2, ..column(physical::INT32, kind::DECIMAL) };
    assert_eq!(read(Edition::FIRST, fraction, &[99, 0, 0, 0]), refused(20));
    assert_eq!(read(Edition::SECOND, fraction, &[99, 0, 0, 0]), Ok(Value::Signed(99)));
    assert_eq!(read(Edition::THIRD, fraction, &[99, 0, 0, 0]), Ok(Value::Signed(99)));
    assert_eq!(read(Edition::SECOND, fraction, &[100, 0, 0, 0]), refused(16));
    assert_eq!(order(Edition::SECOND, fraction, &[99, 0, 0, 0], &[0; 4]), Ok(Order::Greater));
}

#[test]
fn the_third_edition_has_no_int96() {
    let refusal = Err(Refusal { number: 10, place: 1 });
    for logical in [kind::PLAIN_LEAF, kind::UNKNOWN] {
        let sheet = sheet(&[root("r", 1), Slot { logical, ..leaf("t", physical::INT96) }]);
        assert_eq!(rows(Edition::SECOND, &sheet).map(|rows| rows[1].physical), Ok(physical::INT96));
        assert_eq!(rows(Edition::THIRD, &sheet), refusal.map(|()| Vec::new()));
        let mut out = [7; 512];
        assert_eq!(rewrite(Edition::THIRD, &sheet, &mut out, 0), refusal.map(|()| 0));
        assert_eq!(out, [7; 512]);
        let int96 = column(physical::INT96, logical);
        assert_eq!(read(Edition::THIRD, int96, &[0; 12]), refused(20));
        assert_eq!(order(Edition::THIRD, int96, &[], &[]).map_err(|refused| refused.refusal), refused(20));
    }
}

#[test]
fn int96_times_there_and_back() {
    for count in [i64::MIN, i64::MIN + 1, -86_400_000_000_001, -1, 0, 1, i64::MAX - 1, i64::MAX] {
        assert_eq!(from_int96(&to_int96(count)), Ok(count));
    }
    let day = 86_400_000_000_000_u64.to_le_bytes();
    for length in (0..12).chain(13..=24) {
        assert_eq!(from_int96(&day.repeat(3)[..length]), refused(15));
    }
    assert_eq!(from_int96(&[&day[..], &[0; 4]].concat()), refused(16));
    assert_eq!(from_int96(&[0xFF; 12]), refused(16));
    assert_eq!(from_int96(&[0; 12]), refused(19));
    // The nanosecond before the least count, in its day, and the one behind the greatest.
    for (end, step) in [(i64::MIN, u64::wrapping_sub as fn(u64, u64) -> u64), (i64::MAX, u64::wrapping_add)] {
        let (nanos, day) =
            to_int96(end).split_first_chunk().map(|(nanos, day)| (*nanos, day.to_vec())).expect("12 bytes");
        let beyond = step(u64::from_le_bytes(nanos), 1).to_le_bytes();
        assert_eq!(from_int96(&[&beyond[..], &day].concat()), refused(19));
    }
}

#[test]
fn the_third_edition_has_geometry_and_geography() {
    let edge_rules =
        [edge_rule::SPHERICAL, edge_rule::VINCENTY, edge_rule::THOMAS, edge_rule::ANDOYER, edge_rule::KARNEY];
    let of_geography = edge_rules.map(|a| (kind::GEOGRAPHY, a));
    for (logical, a) in of_geography.into_iter().chain([(kind::GEOMETRY, 0)]) {
        let slot = Slot { logical, a, ..leaf("p", physical::BYTE_ARRAY) };
        let bytes = sheet(&[root("r", 1), slot.clone()]);
        for edition in [Edition::FIRST, Edition::SECOND] {
            assert_eq!(rows(edition, &bytes), Err(Refusal { number: 4, place: 1 }));
            assert_eq!(read(edition, column(physical::BYTE_ARRAY, logical), b""), refused(20));
        }
        let row = rows(Edition::THIRD, &bytes).expect("the third edition accepts it")[1];
        assert_eq!((row.kind, row.p1, row.p2), (logical, a, 0));
        let mut out = [7; 512];
        assert_eq!(rewrite(Edition::THIRD, &bytes, &mut out, 0), Ok(512));
        assert_eq!(out[..], bytes);
        let points = ColumnType { p1: a, ..column(physical::BYTE_ARRAY, logical) };
        assert_eq!(read(Edition::THIRD, points, b"\xFF"), Ok(Value::Bytes { start: 0, length: 1 }));
        assert_eq!(order(Edition::THIRD, points, b"a", b"b").map_err(|refused| refused.refusal), refused(17));
        let beside = sheet(&[root("r", 1), Slot { converted: converted::UTF8, ..slot.clone() }]);
        assert_eq!(rows(Edition::THIRD, &beside), Err(Refusal { number: 9, place: 1 }));
        let another = sheet(&[root("r", 1), Slot { a: 5, ..slot }]);
        assert_eq!(rows(Edition::THIRD, &another), Err(Refusal { number: 10, place: 1 }));
    }
}

#[test]
fn boxes_of_points_and_points_in_them() {
    let bounds = BoundingBox { xmin: -1.0, xmax: 3.0, ymin: -4.0, ymax: 6.0 };
    for kind in [kind::GEOMETRY, kind::GEOGRAPHY] {
        let points = [3.0, -4.0, f64::NAN, 6.0, -1.0, f64::NAN];
        assert_eq!(box_of(kind, &points), Ok(Some(bounds)));
        assert_eq!(box_of(kind, &points[..5]), refused(15));
        assert_eq!(box_of(kind, &points[4..]), Ok(None));
        assert_eq!(box_of(kind, &[]), Ok(None));
        for (x, y, expected) in [(3.0, 6.0, true), (3.5, 6.0, false), (f64::NAN, 0.0, false)] {
            assert_eq!(inside(kind, bounds, x, y), Ok(expected));
        }
        let around = BoundingBox { xmin: 3.0, xmax: -1.0, ..bounds };
        for (x, expected) in [(-1.0, true), (3.0, true), (100.0, true), (0.0, false)] {
            assert_eq!(inside(kind, around, x, 0.0), Ok(expected));
        }
        assert_eq!(inside(kind, BoundingBox { ymin: 7.0, ..bounds }, 0.0, 0.0), refused(16));
        assert_eq!(inside(kind, BoundingBox { xmax: f64::NAN, ..bounds }, 0.0, 0.0), refused(16));
    }
    assert_eq!(box_of(kind::GEOGRAPHY, &[0.0, 90.5]), refused(16));
    assert_eq!(inside(kind::GEOGRAPHY, bounds, -180.5, 0.0), refused(16));
    assert_eq!(inside(kind::GEOMETRY, bounds, -180.5, 0.0), Ok(false));
    for kind in [0, 16, 19, 273, u32::MAX] {
        assert_eq!(box_of(kind, &[200.0]), refused(20));
        assert_eq!(inside(kind, BoundingBox { xmax: f64::NAN, ..bounds }, 200.0, 0.0), refused(20));
    }
}

#[test]
fn an_unknown_edition_comes_first_and_writes_nothing() {
    let sheet = sample();
    for edition in [0, 4, 5, 257, u32::MAX].map(Edition::from) {
        let mut numbers = [7; 4 * ROW_WIDTH];
        let mut out = [7; 512];
        for bytes in [&sheet[..], &[]] {
            assert_eq!(resolve(edition, bytes, &mut numbers), refused(21));
            assert_eq!(resolve(edition, bytes, &mut []), refused(21));
            assert_eq!(rewrite(edition, bytes, &mut out, 0), refused(21));
            assert_eq!(rewrite(edition, bytes, &mut out, 513), refused(21));
            assert_eq!(rows(edition, bytes), refused(21));
        }
        assert_eq!((numbers, out), ([7; 4 * ROW_WIDTH], [7; 512]));
        for given in [column(physical::BOOLEAN, 0), column(physical::GROUP, 0), column(physical::INT96, 0)] {
            assert_eq!(read(edition, given, &[1]), refused(21));
            let unknown = OrderRefusal { refusal: Refusal { number: 21, place: 0 }, value: 0 };
            assert_eq!(order(edition, given, &[1], &[2]), Err(unknown));
            assert_eq!(unknown.to_string(), "refused 21 at 0");
        }
    }
    assert_eq!([2, 3].map(Edition::from), [Edition::SECOND, Edition::THIRD]);
}
