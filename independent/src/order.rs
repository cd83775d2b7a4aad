//! The order of two values of a column: refusal 17, and which value is at fault in the others.

use std::cmp::Ordering;

use crate::codes::physical;
use crate::column::{Column, ColumnType};
use crate::decimal;
use crate::refusal::{self, PairRefusal, Refusal};
use crate::value::{read_in, Value};

/// How the first of two values stands to the second.
#[derive(Clone, Copy, Debug, PartialEq, Eq)]
pub enum Order {
    /// It comes before.
    Less = 0,
    /// They are equal.
    Equal = 1,
    /// It comes after.
    Greater = 2,
    /// One of them is a NaN.
    Unordered = 3,
}

impl From<Ordering> for Order {
    fn from(ordering: Ordering) -> Self {
        match ordering {
            Ordering::Less => Order::Less,
            Ordering::Equal => Order::Equal,
            Ordering::Greater => Order::Greater,
        }
    }
}

/// Orders two values of a column by an edition: refusal 21, then 20, then 17, then those of the first value, then those of the second.
pub fn order(edition: u32, column: ColumnType, a: &[u8], b: &[u8]) -> Result<Order, PairRefusal> {
    let column = Column::of(edition, column).map_err(PairRefusal::of_neither)?;
    if column.physical == physical::INT96 || column.annotation.has_no_order() {
        return Err(PairRefusal::of_neither(Refusal::whole(refusal::NO_ORDER)));
    }
    let first = read_in(&column, a).map_err(PairRefusal::of_first)?;
    let second = read_in(&column, b).map_err(PairRefusal::of_second)?;
    let ordering = match (first, second) {
        (Value::Truth(a), Value::Truth(b)) => Some(a.cmp(&b)),
        (Value::Signed(a), Value::Signed(b)) => Some(a.cmp(&b)),
        (Value::Unsigned(a), Value::Unsigned(b)) => Some(a.cmp(&b)),
        (Value::Float(a), Value::Float(b)) => a.partial_cmp(&b),
        (Value::Double(a), Value::Double(b)) => a.partial_cmp(&b),
        _ if column.is_byte_decimal() => decimal::compare(a, b),
        _ => Some(a.cmp(b)),
    };
    Ok(ordering.map_or(Order::Unordered, Order::from))
}
