//! A side of the comparison: the eleven entries in the shape of the C interface.

use independent::refusal::{is_of_a_sheet, Refusal};

/// The entries of the C interface; all but those of times and of boxes take an edition first. An answer has a refusal's
/// number in bits 32 to 39, 0 for a result, and its place or the result's value in bits 0 to 31. The refusal of an
/// order has in bits 40 to 47 the value at fault, that of a comparison the sheet at fault.
pub trait Side {
    /// T.
    fn resolve(&self, edition: u32, sheet: &[u8], rows: &mut [u32]) -> u64;
    /// Bytes written.
    fn rewrite(&self, edition: u32, sheet: &[u8], out: &mut [u8], start: usize) -> u64;
    /// The number of entries of the list that is written.
    fn compare(&self, edition: u32, first: &[u8], second: &[u8], out: &mut [u8]) -> u64;
    /// The case: 0 truth, 1 signed whole, 2 unsigned whole, 3 FLOAT, 4 DOUBLE, 5 bytes; two numbers are written.
    fn read(&self, edition: u32, column: [u32; 5], value: &[u8], out: &mut [u64]) -> u64;
    /// 0 less, 1 equal, 2 greater, 3 unordered.
    fn order(&self, edition: u32, column: [u32; 5], a: &[u8], b: &[u8]) -> u64;
    /// 7; year, month, day, hour, minute, second and fraction are written.
    fn decode(&self, unit: u32, count: i64, fields: &mut [i64]) -> u64;
    /// 1; one count is written.
    fn encode(&self, unit: u32, fields: &[i64], count: &mut [i64]) -> u64;
    /// 1; one count is written.
    fn from_int96(&self, value: &[u8], count: &mut [i64]) -> u64;
    /// 12; so many bytes are written.
    fn to_int96(&self, count: i64, value: &mut [u8]) -> u64;
    /// 4; xmin, xmax, ymin and ymax are written. Or 0: there is no box.
    fn box_of(&self, kind: u32, points: &[f64], bounds: &mut [f64]) -> u64;
    /// 1 inside, 0 outside.
    fn inside(&self, kind: u32, bounds: [f64; 4], x: f64, y: f64) -> u64;
}

/// The number of an answer's refusal, 0 for a result.
pub fn refusal_of(answer: u64) -> u32 {
    (answer >> 32) as u32 & 0xFF
}

/// The value or the sheet at fault in a refusal: 1 or 2, and 0 for neither; what stands above it is kept, and is 0.
pub fn fault_of(answer: u64) -> u32 {
    (answer >> 40) as u32
}

/// The value of an answer that is a result.
pub fn value_of(answer: u64) -> u32 {
    answer as u32
}

/// An answer as a person reads it.
pub fn shown(answer: u64) -> String {
    match refusal_of(answer) {
        0 => format!("{}", answer),
        number => match fault_of(answer) {
            0 => format!("refused {number} at {}", value_of(answer)),
            sheet if is_of_a_sheet(number) => format!("refused {number} at {} in sheet {sheet}", value_of(answer)),
            value => format!("refused {number} at {} in value {value}", value_of(answer)),
        },
    }
}

/// The answer of a refusal.
pub fn refused(number: u32, place: u32) -> u64 {
    u64::from(number) << 32 | u64::from(place)
}

/// The answer of a refusal of an order or a comparison, with the value or the sheet at fault.
pub fn pair_refused(at_fault: u32, number: u32, place: u32) -> u64 {
    u64::from(at_fault) << 40 | refused(number, place)
}

/// The answer of a result or a refusal.
pub fn answer(result: Result<u32, Refusal>) -> u64 {
    result.map_or_else(|refusal| refused(refusal.number, refusal.place), u64::from)
}

/// Makes a side of a library that has the independent reader's entries.
#[macro_export]
macro_rules! side {
    ($visible:vis $name:ident, $library:ident) => {
        /// The library's entries in the shape of the C interface.
        $visible struct $name;

        impl $crate::side::Side for $name {
            fn resolve(&self, edition: u32, sheet: &[u8], rows: &mut [u32]) -> u64 {
                $crate::side!(@answer $library::resolve(edition, sheet, rows))
            }

            fn rewrite(&self, edition: u32, sheet: &[u8], out: &mut [u8], start: usize) -> u64 {
                $crate::side!(@answer $library::rewrite(edition, sheet, out, start))
            }

            fn compare(&self, edition: u32, first: &[u8], second: &[u8], out: &mut [u8]) -> u64 {
                $crate::side!(@pair $library, $library::compare(edition, first, second, out))
            }

            fn read(&self, edition: u32, column: [u32; 5], value: &[u8], out: &mut [u64]) -> u64 {
                use $library::Value;
                let [physical, type_length, kind, p1, p2] = column;
                let column = $library::ColumnType { physical, type_length, kind, p1, p2 };
                let (case, first, second) = match $library::read(edition, column, value) {
                    Err(refusal) => return $crate::side::refused(refusal.number, refusal.place),
                    Ok(Value::Truth(truth)) => (0, u64::from(truth), 0),
                    Ok(Value::Signed(number)) => (1, number as u64, 0),
                    Ok(Value::Unsigned(number)) => (2, number, 0),
                    Ok(Value::Float(float)) => (3, u64::from(float.to_bits()), 0),
                    Ok(Value::Double(double)) => (4, double.to_bits(), 0),
                    Ok(Value::Bytes { start, length }) => (5, start as u64, length as u64),
                };
                match out.first_chunk_mut() {
                    Some(out) => *out = [first, second],
                    None => return $crate::side::refused($library::refusal::OUTPUT, 0),
                }
                case
            }

            fn order(&self, edition: u32, column: [u32; 5], a: &[u8], b: &[u8]) -> u64 {
                let [physical, type_length, kind, p1, p2] = column;
                let column = $library::ColumnType { physical, type_length, kind, p1, p2 };
                $crate::side!(@pair $library, $library::order(edition, column, a, b))
            }

            fn decode(&self, unit: u32, count: i64, fields: &mut [i64]) -> u64 {
                let decoded = match $library::decode(unit, count) {
                    Ok(decoded) => decoded,
                    Err(refusal) => return $crate::side::refused(refusal.number, refusal.place),
                };
                let $library::Fields { year, month, day, hour, minute, second, fraction } = decoded;
                match fields.first_chunk_mut() {
                    Some(fields) => *fields = [year, month, day, hour, minute, second, fraction],
                    None => return $crate::side::refused($library::refusal::OUTPUT, 0),
                }
                7
            }

            fn encode(&self, unit: u32, fields: &[i64], count: &mut [i64]) -> u64 {
                let encoded = match fields.first_chunk() {
                    Some(&[year, month, day, hour, minute, second, fraction]) => {
                        $library::encode(unit, &$library::Fields { year, month, day, hour, minute, second, fraction })
                    }
                    // Too few fields form no date or time; the unit comes first.
                    None => {
                        let number = match $library::timestamp::Unit::from_code(unit) {
                            Some(_) => $library::refusal::NO_DATE,
                            None => $library::refusal::COLUMN_TYPE,
                        };
                        return $crate::side::refused(number, 0);
                    }
                };
                match (encoded, count.first_mut()) {
                    (Err(refusal), _) => $crate::side::refused(refusal.number, refusal.place),
                    (Ok(_), None) => $crate::side::refused($library::refusal::OUTPUT, 0),
                    (Ok(encoded), Some(count)) => {
                        *count = encoded;
                        1
                    }
                }
            }

            fn from_int96(&self, value: &[u8], count: &mut [i64]) -> u64 {
                $crate::side!(@answer $library::from_int96(value, count))
            }

            fn to_int96(&self, count: i64, value: &mut [u8]) -> u64 {
                $crate::side!(@answer $library::to_int96(count, value))
            }

            fn box_of(&self, kind: u32, points: &[f64], bounds: &mut [f64]) -> u64 {
                $crate::side!(@answer $library::box_of(kind, points, bounds))
            }

            fn inside(&self, kind: u32, bounds: [f64; 4], x: f64, y: f64) -> u64 {
                $crate::side!(@answer $library::inside(kind, bounds, x, y))
            }
        }
    };
    (@answer $result:expr) => {
        match $result {
            Ok(value) => u64::from(value),
            Err(refusal) => $crate::side::refused(refusal.number, refusal.place),
        }
    };
    (@pair $library:ident, $result:expr) => {
        match $result {
            Ok(value) => value as u64,
            Err($library::PairRefusal { refusal, at_fault }) => {
                $crate::side::pair_refused(at_fault, refusal.number, refusal.place)
            }
        }
    };
}
