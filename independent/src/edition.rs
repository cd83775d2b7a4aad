//! Editions, by document 02's: which are known, and what each decides. No other module asks for the
//! number of one.

use crate::refusal::{self, Refusal};

/// The number of the first edition: document 01 as it stands.
pub const FIRST: u32 = 1;
/// The number of the second: a DECIMAL's scale may equal its precision.
pub const SECOND: u32 = 2;
/// The number of the third: no leaf is INT96, and one may be GEOMETRY or GEOGRAPHY.
pub const THIRD: u32 = 3;

/// A known edition.
#[derive(Clone, Copy, Debug, PartialEq, Eq)]
pub struct Edition(u32);

impl Edition {
    /// The edition of a number: refusal 21 where it is none's.
    pub fn known(number: u32) -> Result<Self, Refusal> {
        match number {
            FIRST | SECOND | THIRD => Ok(Edition(number)),
            _ => Err(Refusal::whole(refusal::UNKNOWN_EDITION)),
        }
    }

    /// Whether the scale of a DECIMAL may equal its precision.
    pub fn scale_may_equal_precision(self) -> bool {
        self.0 >= SECOND
    }

    /// Whether a leaf may be INT96.
    pub fn has_int96(self) -> bool {
        self.0 < THIRD
    }

    /// Whether a leaf may be GEOMETRY or GEOGRAPHY; where none may, their codes are in no list.
    pub fn has_geospatial_types(self) -> bool {
        self.0 >= THIRD
    }
}
