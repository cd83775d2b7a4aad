//! The numbered refusals of document 01, with what document 02's add.

use std::fmt;

/// A refusal's number, 1 to 21, and its place.
#[derive(Clone, Copy, Debug, PartialEq, Eq)]
pub struct Refusal {
    /// The number in document 01's table, or 21.
    pub number: u32,
    /// The block, the node, the byte of a text, or 0, as the table says.
    pub place: u32,
}

impl Refusal {
    /// The refusal of a number at a block, a node or a byte.
    pub fn at(number: u32, place: usize) -> Self {
        // Places are below 65,536, so nothing is lost.
        Refusal { number, place: place as u32 }
    }

    /// The refusal of a number that has no place.
    pub fn whole(number: u32) -> Self {
        Refusal { number, place: 0 }
    }
}

impl fmt::Display for Refusal {
    fn fmt(&self, f: &mut fmt::Formatter<'_>) -> fmt::Result {
        write!(f, "refused {} at {}", self.number, self.place)
    }
}

impl std::error::Error for Refusal {}

/// The refusal of what is asked of two: the order of two values, or the comparison of two sheets.
#[derive(Clone, Copy, Debug, PartialEq, Eq)]
pub struct PairRefusal {
    /// Its number and place.
    pub refusal: Refusal,
    /// The value or the sheet at fault: 1 or 2, or 0 for neither.
    pub at_fault: u32,
}

impl PairRefusal {
    /// A refusal of neither.
    pub fn of_neither(refusal: Refusal) -> Self {
        PairRefusal { refusal, at_fault: 0 }
    }

    /// A refusal of the first.
    pub fn of_first(refusal: Refusal) -> Self {
        PairRefusal { refusal, at_fault: 1 }
    }

    /// A refusal of the second.
    pub fn of_second(refusal: Refusal) -> Self {
        PairRefusal { refusal, at_fault: 2 }
    }
}

impl fmt::Display for PairRefusal {
    fn fmt(&self, f: &mut fmt::Formatter<'_>) -> fmt::Result {
        match self.at_fault {
            0 => self.refusal.fmt(f),
            at_fault if is_of_a_sheet(self.refusal.number) => write!(f, "{} in sheet {at_fault}", self.refusal),
            at_fault => write!(f, "{} in value {at_fault}", self.refusal),
        }
    }
}

impl std::error::Error for PairRefusal {}

/// Whether a number is a refusal of what a sheet holds.
pub fn is_of_a_sheet(number: u32) -> bool {
    (SHEET_LENGTH..=MAP).contains(&number)
}

/// Sheet length 0, not a multiple of 512, or over 65,536.
pub const SHEET_LENGTH: u32 = 1;
/// A block check differs.
pub const BLOCK_CHECK: u32 = 2;
/// A block header is wrong.
pub const BLOCK_HEADER: u32 = 3;
/// A slot's codes, name length or zero bytes are wrong, or an unused slot is not zero.
pub const SLOT: u32 = 4;
/// More children are claimed than nodes exist.
pub const NODES_MISSING: u32 = 5;
/// Nodes remain after the root's tree.
pub const NODES_LEFT: u32 = 6;
/// A node is deeper than 32.
pub const TOO_DEEP: u32 = 7;
/// A node's shape.
pub const SHAPE: u32 = 8;
/// Converted and logical type disagree.
pub const DISAGREEMENT: u32 = 9;
/// An annotation on the wrong physical type, length or parameters, or an INT96 leaf in the third edition.
pub const ANNOTATION: u32 = 10;
/// DECIMAL scale or precision.
pub const DECIMAL: u32 = 11;
/// LIST structure.
pub const LIST: u32 = 12;
/// MAP structure.
pub const MAP: u32 = 13;
/// Output too short, or its start lies beyond its end.
pub const OUTPUT: u32 = 14;
/// A value of wrong length, or over 65,536 bytes; an INT96 to convert of another length than 12; an odd number of
/// coordinates.
pub const VALUE_LENGTH: u32 = 15;
/// A value breaks its annotation; an INT96 to convert has a full day of nanoseconds or more; a box is none, or a
/// coordinate of GEOGRAPHY is out of its range.
pub const VALUE: u32 = 16;
/// The column has no order.
pub const NO_ORDER: u32 = 17;
/// The fields form no date or time.
pub const NO_DATE: u32 = 18;
/// The fields, or an INT96 to convert, are not representable in a signed 64-bit count.
pub const NO_COUNT: u32 = 19;
/// No accepted sheet has a leaf of this column type, a time unit is not 1 to 3, or a box is of no kind that has boxes.
pub const COLUMN_TYPE: u32 = 20;
/// The edition is unknown.
pub const UNKNOWN_EDITION: u32 = 21;
