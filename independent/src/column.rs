//! Column types: refusals 21 and 20.

use crate::annotation::{self, Annotation, Logical};
use crate::codes::{kind, logical, physical};
use crate::edition::Edition;
use crate::refusal::{self, Refusal};
use crate::rules;

/// A column type, five numbers as a row has them.
#[derive(Clone, Copy, Debug, PartialEq, Eq)]
pub struct ColumnType {
    /// Physical type.
    pub physical: u32,
    /// Type length.
    pub type_length: u32,
    /// Kind.
    pub kind: u32,
    /// Precision of a DECIMAL, else the first parameter.
    pub p1: u32,
    /// Scale of a DECIMAL, else the second parameter.
    pub p2: u32,
}

/// A column type that a leaf of some sheet has that an edition accepts.
#[derive(Clone, Copy, Debug)]
pub struct Column {
    /// Physical type.
    pub physical: u8,
    /// Type length.
    pub type_length: usize,
    /// Its annotation.
    pub annotation: Annotation,
    /// The precision of a DECIMAL, else 0.
    pub precision: u32,
}

impl Column {
    /// Holds five numbers to the rules that a leaf's slot with them would be held to in an edition: refusal 21, then 20.
    pub fn of(edition: u32, given: ColumnType) -> Result<Self, Refusal> {
        let edition = Edition::known(edition)?;
        Self::lawful(edition, given).ok_or(Refusal::whole(refusal::COLUMN_TYPE))
    }

    fn lawful(edition: Edition, given: ColumnType) -> Option<Self> {
        let physical = u8::try_from(given.physical).ok().filter(|&code| code <= physical::FIXED)?;
        let type_length = i32::try_from(given.type_length).ok()?;
        let annotation = annotation_of(given)?;
        let precision = if annotation == Annotation::Logical(Logical::Decimal) {
            let (precision, scale) = (i32::try_from(given.p1).ok()?, i32::try_from(given.p2).ok()?);
            annotation::is_decimal(edition, physical, type_length, precision, scale).then_some(given.p1)?
        } else {
            0
        };
        let is_lawful =
            rules::is_type_length(physical, type_length) && annotation.may_stand_on(edition, physical, type_length);
        is_lawful.then_some(Column { physical, type_length: type_length as usize, annotation, precision })
    }

    /// Whether values of this column are decimals as bytes.
    pub fn is_byte_decimal(&self) -> bool {
        self.annotation == Annotation::Logical(Logical::Decimal)
            && matches!(self.physical, physical::BYTE_ARRAY | physical::FIXED)
    }
}

/// The annotation of a leaf that has this kind with these parameters.
fn annotation_of(given: ColumnType) -> Option<Annotation> {
    let code = u8::try_from(given.kind).ok()?;
    if code == logical::DECIMAL {
        return Some(Annotation::Logical(Logical::Decimal));
    }
    let (a, b) = (u8::try_from(given.p1).ok()?, u8::try_from(given.p2).ok()?);
    match code {
        kind::PLAIN_LEAF => ((a, b) == (0, 0)).then_some(Annotation::None),
        kind::INTERVAL => ((a, b) == (0, 0)).then_some(Annotation::Interval),
        _ => Logical::from_code(code, a, b).map(Annotation::Logical),
    }
}
