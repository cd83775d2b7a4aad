//! Single values of columns, and their order.

use crate::refusal::{order_result, result};
use crate::{boundary, codes, Edition, OrderRefusal, Refusal};

/// The most bytes of a value.
pub const MAX_VALUE: usize = 65_536;

/// A column type, five numbers as a leaf's row has them.
#[derive(Clone, Copy, Debug, PartialEq, Eq, Hash)]
pub struct ColumnType {
    /// One of [`crate::codes::physical`].
    pub physical: u32,
    /// Type length of a FIXED_LEN_BYTE_ARRAY, else 0.
    pub type_length: u32,
    /// One of [`crate::codes::kind`].
    pub kind: u32,
    /// The kind's first parameter.
    pub p1: u32,
    /// The kind's second parameter.
    pub p2: u32,
}

impl ColumnType {
    /// The numbers in the order of a row.
    fn numbers(self) -> [u32; 5] {
        let ColumnType { physical, type_length, kind, p1, p2 } = self;
        [physical, type_length, kind, p1, p2]
    }
}

/// A read value.
#[derive(Clone, Copy, Debug, PartialEq)]
pub enum Value {
    /// A BOOLEAN.
    Truth(bool),
    /// A whole number that is read signed.
    Signed(i64),
    /// A whole number of INT(n, false).
    Unsigned(u64),
    /// A FLOAT. A NaN is the quiet one with no other bit set.
    Float(f32),
    /// A DOUBLE. A NaN is the quiet one with no other bit set.
    Double(f64),
    /// A stretch of the lent value: INT96 and all byte forms.
    Bytes {
        /// Where it starts.
        start: usize,
        /// How many bytes it has.
        length: usize,
    },
}

/// Reads one value of a column: refusal 21, then 20, then 15, then 16. The place of 16 is, for a STRING, ENUM or JSON, the index where
/// whole sequences of UTF-8, read from the start, stop, and 0 for every other value.
///
/// ```
/// use griffeljol::codes::{kind, physical};
/// use griffeljol::{read, ColumnType, Edition, Value};
///
/// // INT(8, false) on INT32, little-endian.
/// let column = ColumnType { physical: physical::INT32, type_length: 0, kind: kind::INTEGER, p1: 8, p2: 0 };
/// assert_eq!(read(Edition::FIRST, column, &[255, 0, 0, 0]), Ok(Value::Unsigned(255)));
/// assert_eq!(read(Edition::FIRST, column, &[0, 1, 0, 0]).unwrap_err().number, 16);
/// ```
pub fn read(edition: Edition, column: ColumnType, value: &[u8]) -> Result<Value, Refusal> {
    let mut out = [0; 2];
    let case = result(boundary::read(edition.number(), column.numbers(), value, &mut out))?;
    let [bits, length] = out;
    Ok(match case {
        codes::case::TRUTH => Value::Truth(bits != 0),
        codes::case::SIGNED => Value::Signed(bits as i64),
        codes::case::UNSIGNED => Value::Unsigned(bits),
        codes::case::FLOAT => Value::Float(f32::from_bits(bits as u32)),
        codes::case::DOUBLE => Value::Double(f64::from_bits(bits)),
        codes::case::BYTES => Value::Bytes { start: bits as usize, length: length as usize },
        _ => unreachable!("read promises one of the six cases"),
    })
}

/// How the first of two values stands to the second.
#[derive(Clone, Copy, Debug, PartialEq, Eq, Hash)]
pub enum Order {
    /// It comes before.
    Less,
    /// They are equal.
    Equal,
    /// It comes after.
    Greater,
    /// One of them is a NaN.
    Unordered,
}

/// Orders two values of a column: refusal 21, then 20, then 17, then those of the first value, then those of the second. The refusal says
/// which value is at fault, and is what [`read`] gives for it.
///
/// ```
/// use griffeljol::codes::{kind, physical};
/// use griffeljol::{order, ColumnType, Edition, Order};
///
/// // DECIMAL of precision 3 on BYTE_ARRAY, big-endian two's complement: -128 and 127, -1 and -1.
/// let column = ColumnType { physical: physical::BYTE_ARRAY, type_length: 0, kind: kind::DECIMAL, p1: 3, p2: 0 };
/// assert_eq!(order(Edition::FIRST, column, &[0x80], &[0x7F]), Ok(Order::Less));
/// assert_eq!(order(Edition::FIRST, column, &[0xFF], &[0xFF, 0xFF]), Ok(Order::Equal));
/// ```
pub fn order(edition: Edition, column: ColumnType, a: &[u8], b: &[u8]) -> Result<Order, OrderRefusal> {
    let order = order_result(boundary::order(edition.number(), column.numbers(), a, b))?;
    Ok(match order {
        codes::order::LESS => Order::Less,
        codes::order::EQUAL => Order::Equal,
        codes::order::GREATER => Order::Greater,
        codes::order::UNORDERED => Order::Unordered,
        _ => unreachable!("order promises one of the four answers"),
    })
}
