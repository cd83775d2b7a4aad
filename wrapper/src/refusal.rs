//! The numbered refusals of document 01, and 21 of document 02.

use std::error::Error;
use std::fmt;

/// A refusal: its number in document 01's table, or 21, and its place.
///
/// ```
/// use griffeljol::{rows, Edition};
///
/// let refusal = rows(Edition::FIRST, &[0; 100]).unwrap_err();
/// assert_eq!(refusal.to_string(), "refused 1 at 0");
/// assert_eq!(refusal.meaning(), "sheet length 0, not a multiple of 512, or over 65,536");
/// ```
#[derive(Clone, Copy, Debug, PartialEq, Eq, Hash)]
pub struct Refusal {
    /// The number, 1 to 21.
    pub number: u8,
    /// What [`Refusal::place_meaning`] says, else 0.
    pub place: u32,
}

impl Refusal {
    /// What it is given for, in the documents' words.
    pub fn meaning(&self) -> &'static str {
        self.row().0
    }

    /// What [`from_int96`](crate::from_int96) gives it for, where an INT96 has other words than a value of a column or fields have.
    ///
    /// ```
    /// let refusal = griffeljol::from_int96(&[0xFF; 12]).unwrap_err();
    /// assert_eq!((refusal.number, refusal.int96_meaning()), (16, "a full day of nanoseconds or more"));
    /// ```
    pub fn int96_meaning(&self) -> &'static str {
        match self.number {
            15 => "an INT96 has 12 bytes",
            16 => "a full day of nanoseconds or more",
            19 => "no signed 64-bit count of nanoseconds reaches this day and time",
            _ => self.meaning(),
        }
    }

    /// What [`box_of`](crate::box_of) gives it for, where points have other words than a value or a column has.
    ///
    /// ```
    /// let refusal = griffeljol::box_of(griffeljol::codes::kind::STRING, &[]).unwrap_err();
    /// assert_eq!((refusal.number, refusal.box_meaning()), (20, "only GEOMETRY, 17, and GEOGRAPHY, 18, have boxes"));
    /// ```
    pub fn box_meaning(&self) -> &'static str {
        match self.number {
            15 => "an odd number of coordinates",
            16 => "a coordinate of GEOGRAPHY is outside [-180, 180] in x or [-90, 90] in y",
            20 => "only GEOMETRY, 17, and GEOGRAPHY, 18, have boxes",
            _ => self.meaning(),
        }
    }

    /// What [`inside`](crate::inside) gives it for, likewise.
    ///
    /// ```
    /// let turned = [0.0, 1.0, 1.0, 0.0].into();
    /// let refusal = griffeljol::inside(griffeljol::codes::kind::GEOMETRY, turned, 0.0, 0.0).unwrap_err();
    /// assert_eq!(refusal.number, 16);
    /// assert!(refusal.inside_meaning().starts_with("a bound is NaN, ymin is above ymax, or "));
    /// ```
    pub fn inside_meaning(&self) -> &'static str {
        match self.number {
            16 => {
                "a bound is NaN, ymin is above ymax, or a bound or coordinate of GEOGRAPHY is outside [-180, 180] in x or \
                 [-90, 90] in y"
            }
            _ => self.box_meaning(),
        }
    }

    /// What its place is; none where it is always 0.
    ///
    /// ```
    /// use griffeljol::{rows, Edition};
    ///
    /// let refusal = rows(Edition::FIRST, &[255; 512]).unwrap_err();
    /// assert_eq!((refusal.number, refusal.place), (2, 0));
    /// assert_eq!(refusal.place_meaning(), Some("the first such block"));
    /// ```
    pub fn place_meaning(&self) -> Option<&'static str> {
        self.row().1
    }

    /// The row of the table.
    fn row(&self) -> (&'static str, Option<&'static str>) {
        match self.number {
            1 => ("sheet length 0, not a multiple of 512, or over 65,536", None),
            2 => ("block check differs", Some("the first such block")),
            3 => ("block header wrong", Some("the first such block")),
            4 => (
                "slot code outside the lists, name length or zero bytes wrong, unused slot not zero",
                Some("the first such node"),
            ),
            5 => ("more children are claimed than nodes exist", Some("T, the number of nodes")),
            6 => ("nodes remain after the root's tree", Some("the first node left over")),
            7 => ("a node deeper than 32", Some("the first such node")),
            8 => ("shape", Some("the node")),
            9 => ("converted and logical disagree", Some("the node")),
            10 => {
                ("annotation on the wrong physical type, length or parameters, or INT96 in edition 3", Some("the node"))
            }
            11 => ("DECIMAL scale or precision", Some("the node")),
            12 => ("LIST structure", Some("the LIST")),
            13 => ("MAP structure", Some("the MAP")),
            14 => ("output too short, or its start lies beyond its end", None),
            15 => ("value of wrong length, or over 65,536 bytes", None),
            16 => ("value breaks its annotation", Some("the byte where UTF-8 stops in a STRING, ENUM or JSON, else 0")),
            17 => ("this column has no order", None),
            18 => ("fields form no date or time", None),
            19 => ("fields not representable in a signed 64-bit count", None),
            20 => ("no accepted sheet has a leaf of this column type, or a time unit is not 1 to 3", None),
            21 => ("edition unknown", None),
            _ => ("a refusal that no document lists", None),
        }
    }
}

/// The refusal of an order, and the value at fault.
///
/// ```
/// use griffeljol::codes::{kind, physical};
/// use griffeljol::{order, read, ColumnType, Edition};
///
/// // STRING: the second value goes bad at its byte 2.
/// let column = ColumnType { physical: physical::BYTE_ARRAY, type_length: 0, kind: kind::STRING, p1: 0, p2: 0 };
/// let refused = order(Edition::FIRST, column, b"key", b"ke\xFF").unwrap_err();
/// assert_eq!(refused.to_string(), "refused 16 at 2 in value 2");
/// assert_eq!(Err(refused.refusal), read(Edition::FIRST, column, b"ke\xFF"));
/// ```
#[derive(Clone, Copy, Debug, PartialEq, Eq, Hash)]
pub struct OrderRefusal {
    /// What is refused: where a value is at fault, what [`crate::read`] refuses it with.
    pub refusal: Refusal,
    /// The value at fault: 1 or 2, and 0 for neither.
    pub value: u8,
}

/// The refusal of a comparison, and the sheet at fault.
///
/// ```
/// use griffeljol::{differences, rows, Edition};
///
/// let sheet = std::fs::read("../crates/schema_rows/stdin")?;
/// let refused = differences(Edition::FIRST, &sheet, &[255; 512]).unwrap_err();
/// assert_eq!(refused.to_string(), "refused 2 at 0 in sheet 2");
/// assert_eq!(Err(refused.refusal), rows(Edition::FIRST, &[255; 512]));
/// # Ok::<(), std::io::Error>(())
/// ```
#[derive(Clone, Copy, Debug, PartialEq, Eq, Hash)]
pub struct CompareRefusal {
    /// What is refused: where a sheet is at fault, what [`crate::rows`] refuses it with.
    pub refusal: Refusal,
    /// The sheet at fault: 1 or 2, and 0 for neither.
    pub sheet: u8,
}

/// Takes an answer of the boundary apart: bits 32 to 39 are a refusal's number, 0 for a result; bits 0 to 31 its place, or the
/// result's value.
pub(crate) fn result(answer: u64) -> Result<u32, Refusal> {
    let (number, low) = ((answer >> 32) as u8, answer as u32);
    match number {
        0 => Ok(low),
        _ => Err(Refusal { number, place: low }),
    }
}

/// Takes the answer of an order apart: as every answer, and bits 40 to 47 are the value at fault.
pub(crate) fn order_result(answer: u64) -> Result<u32, OrderRefusal> {
    result(answer).map_err(|refusal| OrderRefusal { refusal, value: fault(answer) })
}

/// Takes the answer of a comparison apart: as every answer, and bits 40 to 47 are the sheet at fault.
pub(crate) fn compare_result(answer: u64) -> Result<u32, CompareRefusal> {
    result(answer).map_err(|refusal| CompareRefusal { refusal, sheet: fault(answer) })
}

/// Which of two is at fault in a refusal.
fn fault(answer: u64) -> u8 {
    (answer >> 40) as u8
}

impl fmt::Display for Refusal {
    fn fmt(&self, f: &mut fmt::Formatter<'_>) -> fmt::Result {
        write!(f, "refused {} at {}", self.number, self.place)
    }
}

impl Error for Refusal {}

impl fmt::Display for OrderRefusal {
    fn fmt(&self, f: &mut fmt::Formatter<'_>) -> fmt::Result {
        match self.value {
            0 => self.refusal.fmt(f),
            value => write!(f, "{} in value {value}", self.refusal),
        }
    }
}

impl Error for OrderRefusal {}

impl fmt::Display for CompareRefusal {
    fn fmt(&self, f: &mut fmt::Formatter<'_>) -> fmt::Result {
        match self.sheet {
            0 => self.refusal.fmt(f),
            sheet => write!(f, "{} in sheet {sheet}", self.refusal),
        }
    }
}

impl Error for CompareRefusal {}
