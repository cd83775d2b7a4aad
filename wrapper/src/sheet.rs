//! Sheets: their rows, and rewriting.

use crate::refusal::result;
use crate::{boundary, ColumnType, Edition, Refusal};

/// The most bytes of a sheet.
pub const MAX_SHEET: usize = 65_536;

/// The most nodes of a sheet.
pub const MAX_NODES: usize = 896;

/// The numbers of a row.
pub const ROW_WIDTH: usize = 11;

/// Judges a sheet and writes [`ROW_WIDTH`] numbers for each of its nodes, in listing order; answers T, how many nodes it has.
/// Numbers beyond the rows stay.
///
/// Refusal 21, then 1 to 13, then 14 where fewer than `ROW_WIDTH * T` numbers are lent.
///
/// ```
/// use griffeljol::{resolve, Edition, MAX_NODES, ROW_WIDTH};
///
/// let sheet = std::fs::read("../crates/schema_rows/stdin")?;
/// let mut rows = [0; ROW_WIDTH * MAX_NODES];
/// let nodes = resolve(Edition::FIRST, &sheet, &mut rows)? as usize;
/// assert_eq!(nodes, 4);
/// assert_eq!(rows[ROW_WIDTH..2 * ROW_WIDTH], [255, 0, 0, 3, 0, 0, 0, 4, 0, 0, 0]);
/// # Ok::<(), Box<dyn std::error::Error>>(())
/// ```
pub fn resolve(edition: Edition, sheet: &[u8], rows: &mut [u32]) -> Result<u32, Refusal> {
    result(boundary::resolve(edition.number(), sheet, rows))
}

/// A node's row.
#[derive(Clone, Copy, Debug, PartialEq, Eq, Hash)]
pub struct Row {
    /// Physical type, or group: one of [`crate::codes::physical`].
    pub physical: u32,
    /// Type length of a FIXED_LEN_BYTE_ARRAY, else 0.
    pub type_length: u32,
    /// One of [`crate::codes::repetition`].
    pub repetition: u32,
    /// One of [`crate::codes::kind`].
    pub kind: u32,
    /// The kind's first parameter.
    pub p1: u32,
    /// The kind's second parameter.
    pub p2: u32,
    /// The parent's number; the root's is 0.
    pub parent: u32,
    /// One past the last descendant.
    pub end: u32,
    /// One of [`crate::codes::role`].
    pub role: u32,
    /// How many nodes on the path from the root to this one, itself included, are optional or repeated: at most 32.
    pub definition_level: u32,
    /// How many of them are repeated: never more.
    pub repetition_level: u32,
}

impl Row {
    /// The column type of a leaf's row.
    pub fn column_type(&self) -> ColumnType {
        let Row { physical, type_length, kind, p1, p2, .. } = *self;
        ColumnType { physical, type_length, kind, p1, p2 }
    }

    /// The numbers in their order.
    pub fn numbers(&self) -> [u32; ROW_WIDTH] {
        [
            self.physical,
            self.type_length,
            self.repetition,
            self.kind,
            self.p1,
            self.p2,
            self.parent,
            self.end,
            self.role,
            self.definition_level,
            self.repetition_level,
        ]
    }
}

impl From<[u32; ROW_WIDTH]> for Row {
    fn from(numbers: [u32; ROW_WIDTH]) -> Self {
        let [physical, type_length, repetition, kind, p1, p2, parent, end, role, definition_level, repetition_level] =
            numbers;
        Row { physical, type_length, repetition, kind, p1, p2, parent, end, role, definition_level, repetition_level }
    }
}

/// The rows of a sheet, in listing order; refusal 21, then 1 to 13.
///
/// ```
/// use griffeljol::{codes, rows, Edition};
///
/// let sheet = std::fs::read("../crates/schema_rows/stdin")?;
/// let rows = rows(Edition::FIRST, &sheet)?;
/// let element = rows[3];
/// assert_eq!(element.role, codes::role::ELEMENT);
/// assert_eq!((element.definition_level, element.repetition_level), (2, 1));
/// assert_eq!(element.column_type().kind, codes::kind::STRING);
/// # Ok::<(), Box<dyn std::error::Error>>(())
/// ```
pub fn rows(edition: Edition, sheet: &[u8]) -> Result<Vec<Row>, Refusal> {
    let mut numbers = vec![[0; ROW_WIDTH]; MAX_NODES];
    let nodes = resolve(edition, sheet, numbers.as_flattened_mut())?;
    numbers.truncate(nodes as usize);
    Ok(numbers.into_iter().map(Row::from).collect())
}

/// Judges a sheet and writes it, with both annotations at every node, into the output from the start on; answers how many bytes
/// were written, the sheet's own length. Bytes before and after stay.
///
/// Refusal 21, then 1 to 13, then 14 where the start is beyond the output's end or the sheet does not fit behind it.
///
/// ```
/// use griffeljol::{rewrite, rows, Edition};
///
/// let sheet = std::fs::read("../crates/schema_rows/stdin")?;
/// let mut out = vec![0; sheet.len()];
/// assert_eq!(rewrite(Edition::FIRST, &sheet, &mut out, 0)? as usize, sheet.len());
/// assert_eq!(rows(Edition::FIRST, &out)?, rows(Edition::FIRST, &sheet)?);
/// # Ok::<(), Box<dyn std::error::Error>>(())
/// ```
pub fn rewrite(edition: Edition, sheet: &[u8], out: &mut [u8], start: usize) -> Result<u32, Refusal> {
    result(boundary::rewrite(edition.number(), sheet, out, start))
}
