//! Single values: refusals 15 and 16.

use crate::annotation::{Annotation, Logical};
use crate::codes::physical;
use crate::column::{Column, ColumnType};
use crate::decimal;
use crate::refusal::{self, Refusal};
use crate::utf8;

/// The most bytes of a value.
pub const MAX_VALUE: usize = 65_536;

/// A read value.
#[derive(Clone, Copy, Debug, PartialEq)]
pub enum Value {
    /// A BOOLEAN.
    Truth(bool),
    /// A whole number, read signed.
    Signed(i64),
    /// A whole number of INT(n, false).
    Unsigned(u64),
    /// A FLOAT. A NaN is the quiet one with no other bit set.
    Float(f32),
    /// A DOUBLE. A NaN is the quiet one with no other bit set.
    Double(f64),
    /// A stretch of the lent bytes: INT96 and all byte forms.
    Bytes {
        /// Where it starts.
        start: usize,
        /// How many bytes it has.
        length: usize,
    },
}

/// Reads one value of a column by an edition: refusal 21, then 20, then 15, then 16.
pub fn read(edition: u32, column: ColumnType, value: &[u8]) -> Result<Value, Refusal> {
    read_in(&Column::of(edition, column)?, value)
}

/// Reads one value of a lawful column.
pub fn read_in(column: &Column, value: &[u8]) -> Result<Value, Refusal> {
    if !has_length(column, value.len()) {
        return Err(Refusal::whole(refusal::VALUE_LENGTH));
    }
    if column.annotation == Annotation::Logical(Logical::Unknown) {
        return Err(broken());
    }
    match column.physical {
        physical::BOOLEAN => match value {
            [0] => Ok(Value::Truth(false)),
            [1] => Ok(Value::Truth(true)),
            _ => Err(broken()),
        },
        physical::INT32 => {
            let bits = u32::from_le_bytes(array(value));
            whole(column, i64::from(bits as i32), u64::from(bits))
        }
        physical::INT64 => {
            let bits = u64::from_le_bytes(array(value));
            whole(column, bits as i64, bits)
        }
        physical::FLOAT => {
            const QUIET_NAN: u32 = 0x7FC0_0000;
            let float = f32::from_le_bytes(array(value));
            Ok(Value::Float(if float.is_nan() { f32::from_bits(QUIET_NAN) } else { float }))
        }
        physical::DOUBLE => {
            const QUIET_NAN: u64 = 0x7FF8_0000_0000_0000;
            let double = f64::from_le_bytes(array(value));
            Ok(Value::Double(if double.is_nan() { f64::from_bits(QUIET_NAN) } else { double }))
        }
        _ => match breaks_at(column, value) {
            Some(place) => Err(Refusal::at(refusal::VALUE, place)),
            None => Ok(Value::Bytes { start: 0, length: value.len() }),
        },
    }
}

/// The refusal of a value that breaks its annotation and is no text.
fn broken() -> Refusal {
    Refusal::whole(refusal::VALUE)
}

/// Whether a value of this column may have so many bytes.
fn has_length(column: &Column, length: usize) -> bool {
    let right = match column.physical {
        physical::BOOLEAN => length == 1,
        physical::INT32 | physical::FLOAT => length == 4,
        physical::INT64 | physical::DOUBLE => length == 8,
        physical::INT96 => length == 12,
        physical::FIXED => length == column.type_length,
        _ => true,
    };
    right && length <= MAX_VALUE && (!column.is_byte_decimal() || decimal::is_length(length))
}

/// The bytes of a value whose length was checked.
fn array<const N: usize>(value: &[u8]) -> [u8; N] {
    value.try_into().expect("the length was checked")
}

/// A whole number, which is read signed or, under INT(n, false), unsigned, and held to its annotation.
fn whole(column: &Column, signed: i64, unsigned: u64) -> Result<Value, Refusal> {
    let kept = match column.annotation {
        Annotation::Logical(Logical::Integer { bit_width, is_signed: false }) => {
            let kept = u128::from(unsigned) < 1 << bit_width;
            return if kept { Ok(Value::Unsigned(unsigned)) } else { Err(broken()) };
        }
        Annotation::Logical(Logical::Integer { bit_width, is_signed: true }) => {
            let bound = 1i128 << (bit_width - 1);
            (-bound..bound).contains(&i128::from(signed))
        }
        Annotation::Logical(Logical::Time { unit, .. }) => (0..unit.ticks_per_day()).contains(&signed),
        Annotation::Logical(Logical::Decimal) => signed.unsigned_abs() < 10u64.pow(column.precision),
        _ => true,
    };
    if kept {
        Ok(Value::Signed(signed))
    } else {
        Err(broken())
    }
}

/// The place at which bytes break their annotation, if they do: that of a text is where whole sequences stop short of its end.
fn breaks_at(column: &Column, value: &[u8]) -> Option<usize> {
    match column.annotation {
        Annotation::Logical(Logical::Decimal) => {
            (decimal::fits_precision(value, column.precision) != Some(true)).then_some(0)
        }
        Annotation::Logical(Logical::String | Logical::Enum | Logical::Json) => {
            Some(utf8::valid_up_to(value)).filter(|&stop| stop < value.len())
        }
        _ => None,
    }
}
