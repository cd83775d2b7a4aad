//! Editions of the rules.

/// An edition, by its number. Any number may be asked; refusal 21 is for those that are no known edition's.
///
/// ```
/// use griffeljol::codes::{kind, physical};
/// use griffeljol::{read, ColumnType, Edition, Value};
///
/// // DECIMAL(2, 2) on BYTE_ARRAY.
/// let column = ColumnType { physical: physical::BYTE_ARRAY, type_length: 0, kind: kind::DECIMAL, p1: 2, p2: 2 };
/// assert_eq!(read(Edition::FIRST, column, &[0x63]).unwrap_err().number, 20);
/// assert_eq!(read(Edition::SECOND, column, &[0x63]), Ok(Value::Bytes { start: 0, length: 1 }));
/// let unknown = read(Edition::from(4), column, &[0x63]).unwrap_err();
/// assert_eq!(unknown.to_string(), "refused 21 at 0");
/// assert_eq!(unknown.meaning(), "edition unknown");
/// ```
#[derive(Clone, Copy, Debug, PartialEq, Eq, Hash)]
pub struct Edition(u32);

impl Edition {
    /// Document 01 as it stands: the scale of a DECIMAL is below its precision.
    pub const FIRST: Self = Edition(1);

    /// The scale of a DECIMAL is at most its precision. What the first edition accepts this one accepts too, with the same answer.
    pub const SECOND: Self = Edition(2);

    /// As the second, but no leaf is INT96: one is refused with 10, whatever its annotation, and such a column type
    /// with 20. A leaf may be GEOMETRY or GEOGRAPHY, whose numbers the others refuse with 4, and with 20 in a column
    /// type.
    pub const THIRD: Self = Edition(3);

    /// Its number.
    pub fn number(self) -> u32 {
        self.0
    }
}

impl From<u32> for Edition {
    fn from(number: u32) -> Self {
        Edition(number)
    }
}
