//! Single values and their order: every column type at the edges of its lengths and of its annotation, and every pair of
//! numbers that might be a column type.

use std::fmt::Write;

use independent::codes::kind::{INTERVAL, PLAIN_LEAF};
use independent::codes::logical::{
    BSON, DATE, DECIMAL, ENUM, GEOGRAPHY, GEOMETRY, INTEGER, JSON, STRING, TIME, TIMESTAMP, UNKNOWN, UUID,
};
use independent::codes::physical::{BOOLEAN, BYTE_ARRAY, DOUBLE, FIXED, FLOAT, INT32, INT64, INT96};
use independent::decimal::greatest_precision;
use independent::edition::FIRST;
use independent::value::MAX_VALUE;
use independent::{order, read, ColumnType, Order, Value};

use crate::bytes::{put, put_size, Reader};
use crate::editions::Editions;
use crate::{plain_text, wide};

const PHYSICAL: [&str; 8] = ["BOOLEAN", "INT32", "INT64", "INT96", "FLOAT", "DOUBLE", "BYTE_ARRAY", "FIXED"];
const KINDS: [(u8, &str); 15] = [
    (PLAIN_LEAF, "plain"),
    (STRING, "STRING"),
    (ENUM, "ENUM"),
    (DECIMAL, "DECIMAL"),
    (DATE, "DATE"),
    (TIME, "TIME"),
    (TIMESTAMP, "TIMESTAMP"),
    (INTEGER, "INT"),
    (UNKNOWN, "UNKNOWN"),
    (JSON, "JSON"),
    (BSON, "BSON"),
    (UUID, "UUID"),
    (GEOMETRY, "GEOMETRY"),
    (GEOGRAPHY, "GEOGRAPHY"),
    (INTERVAL, "INTERVAL"),
];
const TICKS_PER_DAY: [i128; 4] = [0, 86_400_000, 86_400_000_000, 86_400_000_000_000];

pub fn input() -> Vec<u8> {
    packed(Editions::First, &vectors().0)
}

pub fn vectors() -> Vectors {
    let mut vectors = Vectors::default();
    for column in lawful_columns() {
        for value in edges(column) {
            vectors.add(column, &value, None);
        }
    }
    for column in judged_columns() {
        let size = match u8::try_from(column.physical) {
            Ok(BOOLEAN | BYTE_ARRAY) => 1,
            Ok(INT32 | FLOAT) => 4,
            Ok(INT64 | DOUBLE) => 8,
            _ => 12,
        };
        vectors.add(column, &Bytes::all(vec![0; size]), None);
    }
    for column in lawful_columns() {
        pairs(&mut vectors, FIRST, column);
    }
    let int96 = |kind| ColumnType { kind, ..plain(INT96) };
    for column in [plain(8), int96(STRING.into()), int96(INTERVAL.into()), int96(UNKNOWN.into())] {
        vectors.add(column, &Bytes::all(vec![0]), Some(&Bytes::all(vec![])));
    }
    bad_texts(&mut vectors);
    plain_texts(&mut vectors);
    vectors
}

/// The vectors as they are stored: their number; then for each its edition, where that stands before each, a title after its length, the
/// five numbers of a column type, a value, whether a second follows, and it.
pub fn packed(editions: Editions, vectors: &[Vector]) -> Vec<u8> {
    let mut bytes = Vec::new();
    put_size(&mut bytes, vectors.len());
    for Vector { edition, title, column, first, second } in vectors {
        editions.put(&mut bytes, *edition);
        put_size(&mut bytes, title.len());
        bytes.extend(title.bytes());
        for number in [column.physical, column.type_length, column.kind, column.p1, column.p2] {
            put(&mut bytes, number);
        }
        first.packed(&mut bytes);
        put(&mut bytes, second.is_some().into());
        if let Some(second) = second {
            second.packed(&mut bytes);
        }
    }
    bytes
}

pub fn answers(input: &[u8]) -> Vec<u8> {
    answers_in(Editions::First, input)
}

pub fn answers_in(editions: Editions, input: &[u8]) -> Vec<u8> {
    let mut lines = String::new();
    let mut reader = Reader::new(input);
    for _ in 0..reader.u32() {
        let edition = editions.read(&mut reader);
        let length = reader.size();
        let title = reader.text(length);
        let mut number = || reader.u32();
        let column =
            ColumnType { physical: number(), type_length: number(), kind: number(), p1: number(), p2: number() };
        let first = Bytes::unpacked(&mut reader);
        let second = if reader.u32() == 0 { None } else { Some(Bytes::unpacked(&mut reader)) };
        writeln!(lines, "{title}: {}", answer_text(edition, column, &first, second.as_ref())).unwrap();
    }
    lines.into()
}

/// What a value is read as, or how two values are ordered both ways round.
pub fn answer_text(edition: u32, column: ColumnType, first: &Bytes, second: Option<&Bytes>) -> String {
    let first = first.content();
    let Some(second) = second.map(Bytes::content) else {
        return read_text(edition, column, &first);
    };
    let order = |a: &[u8], b: &[u8]| order_text(edition, column, a, b);
    format!("{}, {}", order(&first, &second), order(&second, &first))
}

fn read_text(edition: u32, column: ColumnType, value: &[u8]) -> String {
    match read(edition, column, value) {
        Ok(Value::Truth(truth)) => truth.to_string(),
        Ok(Value::Signed(number)) => number.to_string(),
        Ok(Value::Unsigned(number)) => number.to_string(),
        Ok(Value::Float(float)) if float.is_nan() => "float NaN".to_string(),
        Ok(Value::Float(float)) => format!("float {:08x}", float.to_bits()),
        Ok(Value::Double(double)) if double.is_nan() => "double NaN".to_string(),
        Ok(Value::Double(double)) => format!("double {:016x}", double.to_bits()),
        Ok(Value::Bytes { start, length }) => format!("bytes {start} {length}"),
        Err(refusal) => refusal.to_string(),
    }
}

fn order_text(edition: u32, column: ColumnType, a: &[u8], b: &[u8]) -> String {
    match order(edition, column, a, b) {
        Ok(Order::Less) => "less".to_string(),
        Ok(Order::Equal) => "equal".to_string(),
        Ok(Order::Greater) => "greater".to_string(),
        Ok(Order::Unordered) => "unordered".to_string(),
        Err(refusal) => refusal.to_string(),
    }
}

/// A value, as the bytes given and a byte that fills the rest.
#[derive(Clone)]
pub struct Bytes {
    head: Vec<u8>,
    length: usize,
    fill: u8,
}

impl Bytes {
    pub fn all(head: Vec<u8>) -> Self {
        Bytes { length: head.len(), head, fill: 0 }
    }

    fn filled(length: usize, fill: u8) -> Self {
        Bytes { head: vec![], length, fill }
    }

    fn content(&self) -> Vec<u8> {
        let mut content = self.head.clone();
        content.resize(self.length, self.fill);
        content
    }

    fn title(&self) -> String {
        let hex = |bytes: &[u8]| bytes.iter().map(|byte| format!("{byte:02x}")).collect::<String>();
        let mut title = match &self.head[..] {
            [] => "-".to_string(),
            head if head.len() <= 16 => hex(head),
            head => format!("{}..{}({})", hex(&head[..4]), hex(&head[head.len() - 4..]), head.len()),
        };
        if self.length > self.head.len() {
            write!(title, "+{}*{:02x}", self.length - self.head.len(), self.fill).unwrap();
        }
        title
    }

    fn packed(&self, bytes: &mut Vec<u8>) {
        put_size(bytes, self.length);
        put_size(bytes, self.head.len());
        put(bytes, self.fill.into());
        bytes.extend(&self.head);
    }

    fn unpacked(reader: &mut Reader) -> Self {
        let (length, given, fill) = (reader.size(), reader.size(), reader.u32() as u8);
        Bytes { head: reader.take(given).to_vec(), length, fill }
    }

    /// Whether the other has the same content and is written down alike.
    fn is_alike(&self, other: &Bytes) -> bool {
        let rest = |bytes: &Bytes| if bytes.length > bytes.head.len() { bytes.fill } else { 0 };
        (&self.head, self.length, rest(self)) == (&other.head, other.length, rest(other))
    }
}

/// A value of a column to read, or two to order, by an edition.
#[derive(Clone)]
pub struct Vector {
    pub edition: u32,
    pub title: String,
    pub column: ColumnType,
    pub first: Bytes,
    pub second: Option<Bytes>,
}

#[derive(Default)]
pub struct Vectors(pub Vec<Vector>);

impl Vectors {
    /// A value to read, or two to order, by the first edition.
    pub fn add(&mut self, column: ColumnType, first: &Bytes, second: Option<&Bytes>) {
        let mut title = format!("{} {}", column_title(column), first.title());
        if let Some(second) = second {
            write!(title, " against {}", second.title()).unwrap();
        }
        self.0.push(Vector { edition: FIRST, title, column, first: first.clone(), second: second.cloned() });
    }
}

fn column_title(column: ColumnType) -> String {
    let ColumnType { physical, type_length, kind, p1, p2 } = column;
    let physical = PHYSICAL.get(physical as usize).map_or(physical.to_string(), |name| name.to_string());
    let kind =
        KINDS.iter().find(|(code, _)| u32::from(*code) == kind).map_or(kind.to_string(), |(_, name)| name.to_string());
    format!("{physical} {type_length} {kind} {p1} {p2}")
}

/// Orders of values that can be read in an edition with one another and with themselves, and of some that cannot.
pub fn pairs(vectors: &mut Vectors, edition: u32, column: ColumnType) {
    let (valid, mut wrong): (Vec<_>, Vec<_>) =
        edges(column).into_iter().partition(|value| read(edition, column, &value.content()).is_ok());
    wrong.truncate(3);
    let is_float = [FLOAT, DOUBLE].map(u32::from).contains(&column.physical);
    let step = if is_float || valid.len() <= 12 { 1 } else { valid.len() / 10 };
    let chosen: Vec<&Bytes> = valid.iter().step_by(step).collect();
    for (i, first) in chosen.iter().enumerate() {
        for second in &chosen[i..] {
            vectors.add(column, first, Some(second));
        }
    }
    for first in &wrong {
        for second in chosen.first().copied().into_iter().chain(&wrong) {
            vectors.add(column, first, Some(second));
        }
    }
}

/// Whole numbers around every bound of a width.
fn whole_numbers() -> Vec<i128> {
    let mut numbers = vec![0, 1, -1];
    for bits in [7, 8, 15, 16, 31, 32, 63, 64] {
        for sign in [1, -1] {
            numbers.extend([-1, 0, 1].map(|near| sign * (1i128 << bits) + near));
        }
    }
    numbers.sort_unstable();
    numbers.dedup();
    numbers
}

const FLOATS: [u32; 22] = [
    0x0000_0000,
    0x8000_0000,
    0x0000_0001,
    0x8000_0001,
    0x007F_FFFF,
    0x807F_FFFF,
    0x0080_0000,
    0x8080_0000,
    0x3F80_0000,
    0xBF80_0000,
    0x3F80_0001,
    0x7F7F_FFFF,
    0xFF7F_FFFF,
    0x7F80_0000,
    0xFF80_0000,
    0x7F80_0001,
    0x7FBF_FFFF,
    0x7FC0_0000,
    0xFFC0_0000,
    0xFF80_0001,
    0xFFFF_FFFF,
    0x7FFF_FFFF,
];
const DOUBLES: [u64; 21] = [
    0x0000_0000_0000_0000,
    0x8000_0000_0000_0000,
    0x0000_0000_0000_0001,
    0x8000_0000_0000_0001,
    0x000F_FFFF_FFFF_FFFF,
    0x800F_FFFF_FFFF_FFFF,
    0x0010_0000_0000_0000,
    0x8010_0000_0000_0000,
    0x3FF0_0000_0000_0000,
    0xBFF0_0000_0000_0000,
    0x3FF0_0000_0000_0001,
    0x7FEF_FFFF_FFFF_FFFF,
    0xFFEF_FFFF_FFFF_FFFF,
    0x7FF0_0000_0000_0000,
    0xFFF0_0000_0000_0000,
    0x7FF0_0000_0000_0001,
    0x7FF8_0000_0000_0000,
    0xFFF8_0000_0000_0000,
    0xFFF0_0000_0000_0001,
    0xFFFF_FFFF_FFFF_FFFF,
    0x7FFF_FFFF_FFFF_FFFF,
];
const TEXTS: [&[u8]; 10] = [
    b"",
    b"a",
    b"injection",
    "é€😀".as_bytes(),
    b"\x80",
    b"\xC3",
    b"\xED\xA0\x80",
    b"\xF4\x90\x80\x80",
    b"\xC0\x80",
    b"ab\xFF",
];

/// What no text may have: sequences cut off behind each of their octets, overlong forms, surrogates, what lies above U+10FFFF, tails
/// without a first octet, and octets that are no tails where one is due.
const BAD: [&[u8]; 29] = [
    b"\xC3",
    b"\xE2",
    b"\xE2\x82",
    b"\xF0",
    b"\xF0\x9F",
    b"\xF0\x9F\x98",
    b"\xC0\x80",
    b"\xC1\xBF",
    b"\xE0\x80\x80",
    b"\xE0\x9F\xBF",
    b"\xF0\x80\x80\x80",
    b"\xF0\x8F\xBF\xBF",
    b"\xED\xA0\x80",
    b"\xED\xAF\xBF",
    b"\xED\xB0\x80",
    b"\xED\xBF\xBF",
    b"\xF4\x90\x80\x80",
    b"\xF5\x80\x80\x80",
    b"\xF8\x88\x80\x80\x80",
    b"\xFE",
    b"\xFF",
    b"\x80",
    b"\xBF",
    b"\xC3\x28",
    b"\xE2\x28\xA1",
    b"\xE2\x82\x28",
    b"\xF0\x28\x8C\xBC",
    b"\xF0\x90\x28\xBC",
    b"\xF0\x90\x8C\x28",
];

/// Texts that go bad first, in the middle, last, behind letters of two, three and four octets, and far on: read; ordered against a good one,
/// where either value is at fault, one way round and the other; and ordered against one another.
fn bad_texts(vectors: &mut Vectors) {
    let text_of = |parts: [&[u8]; 3]| Bytes::all(parts.concat());
    let first = |bad| text_of([b"", bad, b"ab"]);
    let middle = |bad| text_of([b"ab", bad, b"cd"]);
    let last = |bad| text_of([b"abc", bad, b""]);
    let behind_letters = |bad| text_of(["é€😀".as_bytes(), bad, b""]);
    let far_on = |bad| text_of([&[b'a'; 300], bad, b"a"]);
    let good = Bytes::all(b"abc".to_vec());
    for kind in [STRING, ENUM, JSON] {
        let column = ColumnType { kind: kind.into(), ..plain(BYTE_ARRAY) };
        for (at, bad) in BAD.into_iter().enumerate() {
            for text in [first(bad), middle(bad), last(bad), behind_letters(bad)] {
                vectors.add(column, &text, None);
                vectors.add(column, &text, Some(&good));
            }
            vectors.add(column, &middle(bad), Some(&last(BAD[(at + 1) % BAD.len()])));
        }
        vectors.add(column, &far_on(b"\xFF"), None);
        vectors.add(column, &far_on(b"\xFF"), Some(&good));
        // A wrong length of one beside bad text in the other.
        let too_long = Bytes::filled(MAX_VALUE + 1, b'a');
        vectors.add(column, &middle(b"\xFF"), Some(&too_long));
    }
}

/// Plain texts of each length, and a bad byte at each place of one: read.
fn plain_texts(vectors: &mut Vectors) {
    let column = ColumnType { kind: STRING.into(), ..plain(BYTE_ARRAY) };
    for length in 0..=plain_text::LONGEST {
        vectors.add(column, &Bytes::all(plain_text::plain(length)), None);
    }
    for place in 0..plain_text::PLACES {
        vectors.add(column, &Bytes::all(plain_text::with(plain_text::LONGEST, place, &[0x80])), None);
    }
}

/// Values of a column at the edges of its length and of its annotation.
pub fn edges(column: ColumnType) -> Vec<Bytes> {
    let (physical, kind) = (column.physical as u8, column.kind as u8);
    let size = match physical {
        BOOLEAN => Some(1),
        INT32 | FLOAT => Some(4),
        INT64 | DOUBLE => Some(8),
        INT96 => Some(12),
        FIXED => Some(column.type_length as usize),
        _ => None,
    };
    let mut values = Vec::new();
    match size {
        None => {
            values.extend([vec![], vec![0], vec![255]].map(Bytes::all));
            values.extend([256, 257, MAX_VALUE, MAX_VALUE + 1].map(|length| Bytes::filled(length, 0)));
        }
        Some(size) if size > MAX_VALUE => {
            values.extend([MAX_VALUE, MAX_VALUE + 1, 0].map(|length| Bytes::filled(length, 0)));
        }
        Some(size) => {
            for length in [size - 1, size, size + 1] {
                values.extend([0, 255].map(|fill| Bytes::filled(length, fill)));
            }
            values.push(Bytes::all(vec![]));
        }
    }
    match (physical, kind) {
        (BOOLEAN, _) => values.extend([0, 1, 2, 128, 255].map(|byte| Bytes::all(vec![byte]))),
        (INT32 | INT64, _) => {
            let size = if physical == INT32 { 4 } else { 8 };
            let bits = 8 * size as u32;
            values.extend(whole_edges(column, bits).into_iter().map(|x| Bytes::all(x.to_le_bytes()[..size].to_vec())));
        }
        (FLOAT, _) => values.extend(FLOATS.map(|bits| Bytes::all(bits.to_le_bytes().to_vec()))),
        (DOUBLE, _) => values.extend(DOUBLES.map(|bits| Bytes::all(bits.to_le_bytes().to_vec()))),
        (FIXED, DECIMAL) => values.extend(around_power(column.p1, column.type_length as usize)),
        (BYTE_ARRAY, DECIMAL) => values.extend(byte_decimals(column.p1)),
        (BYTE_ARRAY, STRING | ENUM | JSON | PLAIN_LEAF | GEOMETRY | GEOGRAPHY) => {
            values.extend(TEXTS.map(|text| Bytes::all(text.to_vec())))
        }
        _ => {}
    }
    // Of values that are alike the last stands, at the place of the first.
    let mut kept: Vec<Bytes> = Vec::new();
    for value in values {
        match kept.iter_mut().find(|earlier| earlier.is_alike(&value)) {
            Some(earlier) => *earlier = value,
            None => kept.push(value),
        }
    }
    kept
}

/// Whole numbers that so many bits hold, signed or unsigned, and those around the bounds of the annotation.
fn whole_edges(column: ColumnType, bits: u32) -> Vec<i128> {
    let mut numbers = whole_numbers();
    numbers.retain(|&x| -(1i128 << bits) / 2 <= x && x < 1i128 << bits);
    if column.kind == TIME.into() {
        numbers.extend([-1, 0, 1].map(|near| TICKS_PER_DAY[column.p1 as usize] + near));
    }
    if column.kind == DECIMAL.into() {
        let power = 10i128.pow(column.p1);
        numbers.extend([1, -1].into_iter().flat_map(|sign| [-1, 0, 1].map(|near| sign * (power + near))));
    }
    numbers
}

/// The power of ten, the numbers beside it, and minus each, in so many bytes.
fn around_power(exponent: u32, size: usize) -> Vec<Bytes> {
    let near = |small| wide::plus(wide::power_of_ten(exponent, size), small);
    let mut values: Vec<Vec<u8>> = [-1, 0, 1].map(near).to_vec();
    values.extend(values.clone().iter().map(|value| wide::negated(value)));
    values.into_iter().map(Bytes::all).collect()
}

fn byte_decimals(precision: u32) -> Vec<Bytes> {
    let mut values = Vec::new();
    for number in [0, 1, -1, 127, -128, 128, -129, 255, 99, 100, -100, 999, 1000] {
        values.extend([2, 3].map(|size| Bytes::all(wide::plus(vec![0; size], number))));
    }
    values.extend([0x63, 0x64, 0x7F, 0x80, 0x9C, 0x9D].map(|byte| Bytes::all(vec![byte])));
    if precision < 1000 {
        let room = bit_length(&wide::power_of_ten(precision, 512)) / 8 + 1;
        for size in [room, 256].into_iter().filter(|&size| size <= 256) {
            values.extend(around_power(precision, size));
        }
    }
    values
}

fn bit_length(number: &[u8]) -> usize {
    let zeros = number.iter().take_while(|&&byte| byte == 0).count();
    8 * (number.len() - zeros) - number[zeros].leading_zeros() as usize
}

/// A column type without annotation.
pub fn plain(physical: u8) -> ColumnType {
    ColumnType { physical: physical.into(), type_length: 0, kind: PLAIN_LEAF.into(), p1: 0, p2: 0 }
}

fn lawful_columns() -> Vec<ColumnType> {
    let mut columns = Vec::new();
    let annotated = |physical, kind: u8, p1, p2| ColumnType { kind: kind.into(), p1, p2, ..plain(physical) };
    for physical in BOOLEAN..=FIXED {
        for kind in [PLAIN_LEAF, UNKNOWN] {
            if physical == FIXED {
                let lengths = [1, 2, 12, 16, 256, 257, 65_536, 65_537, i32::MAX as u32];
                columns.extend(lengths.map(|type_length| ColumnType { type_length, ..annotated(FIXED, kind, 0, 0) }));
            } else {
                columns.push(annotated(physical, kind, 0, 0));
            }
        }
    }
    columns.extend([STRING, ENUM, JSON, BSON].map(|kind| annotated(BYTE_ARRAY, kind, 0, 0)));
    columns.push(annotated(INT32, DATE, 0, 0));
    columns.push(ColumnType { type_length: 16, ..annotated(FIXED, UUID, 0, 0) });
    columns.push(ColumnType { type_length: 12, ..annotated(FIXED, INTERVAL, 0, 0) });
    for p2 in [0, 1] {
        columns.extend([8, 16, 32].map(|p1| annotated(INT32, INTEGER, p1, p2)));
        columns.push(annotated(INT64, INTEGER, 64, p2));
        for p1 in [1, 2, 3] {
            columns.push(annotated(if p1 == 1 { INT32 } else { INT64 }, TIME, p1, p2));
            columns.push(annotated(INT64, TIMESTAMP, p1, p2));
        }
    }
    for (physical, most) in [(INT32, 9), (INT64, 18)] {
        columns.extend((1..=most).map(|p1| annotated(physical, DECIMAL, p1, p1 - 1)));
    }
    for length in [1, 2, 3, 4, 8, 16, 255, 256] {
        let most = greatest_precision(length).expect("a length of the table");
        columns
            .extend([1, most].map(|p1| ColumnType { type_length: length as u32, ..annotated(FIXED, DECIMAL, p1, 0) }));
    }
    columns
        .extend([1, 2, 3, 4, 38, 615, 616, 617, i32::MAX as u32].map(|p1| annotated(BYTE_ARRAY, DECIMAL, p1, p1 - 1)));
    columns
}

/// Every physical type under every kind, with parameters that some kind takes and some that none does.
fn judged_columns() -> Vec<ColumnType> {
    const MOST: u32 = i32::MAX as u32;
    let parameters =
        [(0, 0), (0, 1), (1, 0), (1, 1), (3, 0), (4, 1), (8, 0), (8, 2), (10, 9), (19, 0), (32, 1), (64, 0), (264, 0)];
    let mut columns = Vec::new();
    for physical in (0..9).chain([255]) {
        for kind in (0..16).chain([21, 22, 30, 266]) {
            let type_length = if physical == u32::from(FIXED) { 12 } else { 0 };
            columns.extend(parameters.map(|(p1, p2)| ColumnType { physical, type_length, kind, p1, p2 }));
        }
    }
    for type_length in [0, 1, 2, 11, 12, 13, 15, 16, 17, 256, 257, MOST, MOST + 1, u32::MAX] {
        for (kind, p1) in [
            (PLAIN_LEAF, 0),
            (UNKNOWN, 0),
            (UUID, 0),
            (INTERVAL, 0),
            (DECIMAL, 1),
            (DECIMAL, 2),
            (DECIMAL, 3),
            (DECIMAL, 616),
            (DECIMAL, 617),
        ] {
            for physical in [FIXED, BYTE_ARRAY, INT32] {
                columns.push(ColumnType { type_length, kind: kind.into(), p1, ..plain(physical) });
            }
        }
    }
    for (p1, p2) in [(MOST, 0), (MOST, MOST - 1), (MOST, MOST), (MOST + 1, 0), (u32::MAX, 0), (1, u32::MAX)] {
        for physical in [INT32, INT64, BYTE_ARRAY, FIXED] {
            let type_length = if physical == FIXED { 256 } else { 0 };
            columns.push(ColumnType { type_length, kind: DECIMAL.into(), p1, p2, ..plain(physical) });
        }
    }
    columns
}
