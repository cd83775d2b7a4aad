//! Two sheets that are compared: what they are called, and each once both are accepted.

use std::ffi::OsString;

use griffeljol::{Edition, Refusal, Row, Sides};

use crate::names;

/// What the arguments call the two, and every answer.
pub const LETTERS: Sides<&str> = Sides { first: "A", second: "B" };

/// An accepted sheet with its file.
pub struct Compared {
    pub file: OsString,
    pub bytes: Vec<u8>,
    pub rows: Vec<Row>,
    /// The path of each node.
    pub paths: Vec<String>,
}

impl Compared {
    /// The sheet of these bytes, with what the library says of it.
    pub fn new(edition: Edition, file: OsString, bytes: Vec<u8>) -> Result<Self, Refusal> {
        let rows = griffeljol::rows(edition, &bytes)?;
        let paths = names::paths(&bytes, &rows);
        Ok(Compared { file, bytes, rows, paths })
    }
}
