//! Safe functions over the C interface of `griffeljol`, the proved reader of Parquet schema sheets.
//!
//! Every answer is the proved library's; nothing is judged here. What no prover sees is the boundary: the declarations
//! of the eleven C functions, and that each slice is handed over as its pointer and its length. All of it stands in one
//! module.
//!
//! "Document 01" is the paper that defines the sheet, the rows and the refusals, "document 02" the one that adds editions,
//! comparison, the turning of INT96 times, and boxes of points. What reads or judges a sheet or a column type takes an
//! [`Edition`] first. Any bytes and any numbers may be offered; a refused call leaves what it was lent as it was.
//!
//! ```
//! use griffeljol::Edition;
//!
//! let sheet = std::fs::read("../crates/schema_rows/stdin")?;
//! let rows = griffeljol::rows(Edition::FIRST, &sheet)?;
//! assert_eq!(rows.len(), 4);
//! assert_eq!(rows[3].kind, griffeljol::codes::kind::STRING);
//! # Ok::<(), Box<dyn std::error::Error>>(())
//! ```
#![deny(unsafe_code)]
#![warn(missing_docs)]

#[allow(unsafe_code)]
mod boundary;
mod bounding_box;
pub mod codes;
mod comparison;
mod edition;
mod int96;
mod refusal;
mod sheet;
mod slot;
mod timestamp;
mod value;

pub use bounding_box::{box_of, inside, BoundingBox, BOX_WIDTH};
pub use comparison::{compare, differences, Difference, Field, Sides, ENTRY_WIDTH, MAX_ENTRIES};
pub use edition::Edition;
pub use int96::{from_int96, to_int96, INT96_WIDTH};
pub use refusal::{CompareRefusal, OrderRefusal, Refusal};
pub use sheet::{resolve, rewrite, rows, Row, MAX_NODES, MAX_SHEET, ROW_WIDTH};
pub use slot::{Slot, MAX_NAME, SLOT_WIDTH};
pub use timestamp::{decode, encode, Fields};
pub use value::{order, read, ColumnType, Order, Value, MAX_VALUE};
