//! A reader of Parquet schema sheets by document 01, written from its papers and sharing nothing with the proved one.
//!
//! Each entry answers a result or a numbered [`Refusal`]; a refused call leaves every lent buffer as it was.
//!
//! ```
//! use independent::{decode, Fields};
//!
//! let fields = decode(1, -1).unwrap();
//! assert_eq!(fields, Fields { year: 1969, month: 12, day: 31, hour: 23, minute: 59, second: 59, fraction: 999 });
//! ```
#![forbid(unsafe_code)]
#![warn(missing_docs)]

pub mod annotation;
pub mod boxes;
pub mod codes;
pub mod column;
pub mod compare;
pub mod decimal;
pub mod edition;
pub mod int96;
pub mod order;
pub mod rebuild;
pub mod refusal;
pub mod rewrite;
pub mod rows;
pub mod rules;
pub mod sheet;
pub mod timestamp;
pub mod tree;
pub mod utf8;
pub mod value;

pub use boxes::{box_of, inside};
pub use column::ColumnType;
pub use compare::compare;
pub use int96::{from_int96, to_int96};
pub use order::{order, Order};
pub use rebuild::rebuild;
pub use refusal::{PairRefusal, Refusal};
pub use rewrite::rewrite;
pub use rows::{resolve, ROW_WIDTH};
pub use timestamp::{decode, encode, Fields};
pub use value::{read, Value};
