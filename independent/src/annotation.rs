//! Converted and logical types of one slot: rules 9 to 11.

use crate::codes::{converted, kind, logical, physical};
use crate::decimal;
use crate::edition::Edition;
use crate::refusal;
use crate::sheet::Slot;
use crate::timestamp::Unit;

/// A logical type with its parameters. DECIMAL's scale and precision are the slot's.
#[allow(missing_docs)]
#[derive(Clone, Copy, Debug, PartialEq, Eq)]
pub enum Logical {
    String,
    Map,
    List,
    Enum,
    Decimal,
    Date,
    Time { unit: Unit, is_adjusted_to_utc: bool },
    Timestamp { unit: Unit, is_adjusted_to_utc: bool },
    Integer { bit_width: u8, is_signed: bool },
    Unknown,
    Json,
    Bson,
    Uuid,
    Geometry,
    Geography { edge_rule: EdgeRule },
}

/// How the points of an edge between two vertices of a GEOGRAPHY are found; its number is parameter a.
#[allow(missing_docs)]
#[derive(Clone, Copy, Debug, PartialEq, Eq)]
pub enum EdgeRule {
    Spherical = 0,
    Vincenty = 1,
    Thomas = 2,
    Andoyer = 3,
    Karney = 4,
}

impl EdgeRule {
    /// All of them, by their numbers.
    pub const ALL: [EdgeRule; 5] =
        [EdgeRule::Spherical, EdgeRule::Vincenty, EdgeRule::Thomas, EdgeRule::Andoyer, EdgeRule::Karney];

    /// The edge rule of a number.
    pub fn from_code(code: u8) -> Option<Self> {
        Self::ALL.get(usize::from(code)).copied()
    }
}

impl Logical {
    /// Reads a code with its parameters; none where rule 10 does not allow them or the code is no type's.
    pub fn from_code(code: u8, a: u8, b: u8) -> Option<Self> {
        let plain = match code {
            logical::INTEGER => {
                let bit_width = matches!(a, 8 | 16 | 32 | 64).then_some(a)?;
                return Some(Logical::Integer { bit_width, is_signed: flag(b)? });
            }
            logical::TIME => {
                return Some(Logical::Time { unit: Unit::from_code(a.into())?, is_adjusted_to_utc: flag(b)? })
            }
            logical::TIMESTAMP => {
                return Some(Logical::Timestamp { unit: Unit::from_code(a.into())?, is_adjusted_to_utc: flag(b)? })
            }
            logical::GEOGRAPHY => {
                let edge_rule = EdgeRule::from_code(a)?;
                return (b == 0).then_some(Logical::Geography { edge_rule });
            }
            logical::STRING => Logical::String,
            logical::MAP => Logical::Map,
            logical::LIST => Logical::List,
            logical::ENUM => Logical::Enum,
            logical::DECIMAL => Logical::Decimal,
            logical::DATE => Logical::Date,
            logical::UNKNOWN => Logical::Unknown,
            logical::JSON => Logical::Json,
            logical::BSON => Logical::Bson,
            logical::UUID => Logical::Uuid,
            logical::GEOMETRY => Logical::Geometry,
            _ => return None,
        };
        (a == 0 && b == 0).then_some(plain)
    }

    /// Its code.
    pub fn code(self) -> u8 {
        match self {
            Logical::String => logical::STRING,
            Logical::Map => logical::MAP,
            Logical::List => logical::LIST,
            Logical::Enum => logical::ENUM,
            Logical::Decimal => logical::DECIMAL,
            Logical::Date => logical::DATE,
            Logical::Time { .. } => logical::TIME,
            Logical::Timestamp { .. } => logical::TIMESTAMP,
            Logical::Integer { .. } => logical::INTEGER,
            Logical::Unknown => logical::UNKNOWN,
            Logical::Json => logical::JSON,
            Logical::Bson => logical::BSON,
            Logical::Uuid => logical::UUID,
            Logical::Geometry => logical::GEOMETRY,
            Logical::Geography { .. } => logical::GEOGRAPHY,
        }
    }

    /// Its parameters a and b.
    pub fn parameters(self) -> (u8, u8) {
        match self {
            Logical::Integer { bit_width, is_signed } => (bit_width, is_signed.into()),
            Logical::Time { unit, is_adjusted_to_utc } | Logical::Timestamp { unit, is_adjusted_to_utc } => {
                (unit as u8, is_adjusted_to_utc.into())
            }
            Logical::Geography { edge_rule } => (edge_rule as u8, 0),
            _ => (0, 0),
        }
    }

    /// Its forward image, whatever the UTC flag.
    pub fn forward(self) -> Option<u8> {
        Some(match self {
            Logical::String => converted::UTF8,
            Logical::Map => converted::MAP,
            Logical::List => converted::LIST,
            Logical::Enum => converted::ENUM,
            Logical::Decimal => converted::DECIMAL,
            Logical::Date => converted::DATE,
            Logical::Json => converted::JSON,
            Logical::Bson => converted::BSON,
            Logical::Time { unit: Unit::Millis, .. } => converted::TIME_MILLIS,
            Logical::Time { unit: Unit::Micros, .. } => converted::TIME_MICROS,
            Logical::Timestamp { unit: Unit::Millis, .. } => converted::TIMESTAMP_MILLIS,
            Logical::Timestamp { unit: Unit::Micros, .. } => converted::TIMESTAMP_MICROS,
            Logical::Time { unit: Unit::Nanos, .. } | Logical::Timestamp { unit: Unit::Nanos, .. } => return None,
            Logical::Integer { bit_width, is_signed } => match (bit_width, is_signed) {
                (8, false) => converted::UINT_8,
                (16, false) => converted::UINT_16,
                (32, false) => converted::UINT_32,
                (64, false) => converted::UINT_64,
                (8, true) => converted::INT_8,
                (16, true) => converted::INT_16,
                (32, true) => converted::INT_32,
                (64, true) => converted::INT_64,
                _ => return None,
            },
            Logical::Unknown | Logical::Uuid | Logical::Geometry | Logical::Geography { .. } => return None,
        })
    }

    /// What a converted type alone means, TIME and TIMESTAMP with UTC true; none for INTERVAL and codes of no type.
    /// MAP_KEY_VALUE means MAP.
    pub fn backward(code: u8) -> Option<Self> {
        let integer = |bit_width, is_signed| Logical::Integer { bit_width, is_signed };
        let time = |unit| Logical::Time { unit, is_adjusted_to_utc: true };
        let timestamp = |unit| Logical::Timestamp { unit, is_adjusted_to_utc: true };
        Some(match code {
            converted::UTF8 => Logical::String,
            converted::MAP | converted::MAP_KEY_VALUE => Logical::Map,
            converted::LIST => Logical::List,
            converted::ENUM => Logical::Enum,
            converted::DECIMAL => Logical::Decimal,
            converted::DATE => Logical::Date,
            converted::TIME_MILLIS => time(Unit::Millis),
            converted::TIME_MICROS => time(Unit::Micros),
            converted::TIMESTAMP_MILLIS => timestamp(Unit::Millis),
            converted::TIMESTAMP_MICROS => timestamp(Unit::Micros),
            converted::UINT_8 => integer(8, false),
            converted::UINT_16 => integer(16, false),
            converted::UINT_32 => integer(32, false),
            converted::UINT_64 => integer(64, false),
            converted::INT_8 => integer(8, true),
            converted::INT_16 => integer(16, true),
            converted::INT_32 => integer(32, true),
            converted::INT_64 => integer(64, true),
            converted::JSON => Logical::Json,
            converted::BSON => Logical::Bson,
            _ => return None,
        })
    }
}

/// A flag of 1 or 0.
fn flag(number: u8) -> Option<bool> {
    match number {
        0 => Some(false),
        1 => Some(true),
        _ => None,
    }
}

/// What the annotations of a slot come to.
#[derive(Clone, Copy, Debug, PartialEq, Eq)]
pub enum Annotation {
    /// No annotation.
    None,
    /// A logical type, by either annotation.
    Logical(Logical),
    /// INTERVAL, which exists only as a converted type.
    Interval,
}

impl Annotation {
    /// Whether an edition's rule 10 lets it, or no annotation, stand on a physical type of this type length.
    pub fn may_stand_on(self, edition: Edition, physical: u8, type_length: i32) -> bool {
        if physical == physical::INT96 && !edition.has_int96() {
            return false;
        }
        let logical = match self {
            Annotation::None => return true,
            Annotation::Interval => return physical == physical::FIXED && type_length == 12,
            Annotation::Logical(logical) => logical,
        };
        match logical {
            Logical::String | Logical::Enum | Logical::Json | Logical::Bson => physical == physical::BYTE_ARRAY,
            Logical::Uuid => physical == physical::FIXED && type_length == 16,
            Logical::Date => physical == physical::INT32,
            Logical::Integer { bit_width: 64, .. } => physical == physical::INT64,
            Logical::Integer { .. } => physical == physical::INT32,
            Logical::Time { unit: Unit::Millis, .. } => physical == physical::INT32,
            Logical::Time { .. } => physical == physical::INT64,
            Logical::Timestamp { .. } => physical == physical::INT64,
            Logical::Unknown => physical != physical::GROUP,
            Logical::Decimal => {
                matches!(physical, physical::INT32 | physical::INT64 | physical::FIXED | physical::BYTE_ARRAY)
            }
            Logical::List | Logical::Map => physical == physical::GROUP,
            Logical::Geometry | Logical::Geography { .. } => {
                edition.has_geospatial_types() && physical == physical::BYTE_ARRAY
            }
        }
    }

    /// The numbers p1 and p2 of an accepted node's row: precision and scale, or a and b, else 0.
    pub fn parameters(self, slot: &Slot) -> (u32, u32) {
        match self {
            // Rule 11 lets no negative number through.
            Annotation::Logical(Logical::Decimal) => (slot.precision as u32, slot.scale as u32),
            Annotation::Logical(logical) => {
                let (a, b) = logical.parameters();
                (a.into(), b.into())
            }
            Annotation::None | Annotation::Interval => (0, 0),
        }
    }

    /// The kind of a row.
    pub fn kind(self, is_group: bool) -> u8 {
        match self {
            Annotation::None if is_group => kind::PLAIN_GROUP,
            Annotation::None => kind::PLAIN_LEAF,
            Annotation::Logical(logical) => logical.code(),
            Annotation::Interval => kind::INTERVAL,
        }
    }

    /// Whether values under it have no order, whatever they are.
    pub fn has_no_order(self) -> bool {
        matches!(self, Annotation::Interval | Annotation::Logical(Logical::Geometry | Logical::Geography { .. }))
    }
}

/// Resolves the annotations of a slot, or answers the number of the first of an edition's rules 9, 10 and 11 that it breaks.
/// A slot is under a map where its parent is a resolved MAP.
pub fn resolve(edition: Edition, slot: &Slot, under_map: bool) -> Result<Annotation, u32> {
    let annotation = meaning(slot, under_map)?;
    if !annotation.may_stand_on(edition, slot.physical, slot.type_length) {
        return Err(refusal::ANNOTATION);
    }
    if annotation == Annotation::Logical(Logical::Decimal)
        && !is_decimal(edition, slot.physical, slot.type_length, slot.precision, slot.scale)
    {
        return Err(refusal::DECIMAL);
    }
    Ok(annotation)
}

/// Rule 9, and the parameters of rule 10: what the two annotations mean together.
fn meaning(slot: &Slot, under_map: bool) -> Result<Annotation, u32> {
    if slot.logical != logical::NONE {
        let read = Logical::from_code(slot.logical, slot.a, slot.b);
        if slot.converted != converted::NONE && read.and_then(Logical::forward) != Some(slot.converted) {
            return Err(refusal::DISAGREEMENT);
        }
        return read.map(Annotation::Logical).ok_or(refusal::ANNOTATION);
    }
    if (slot.a, slot.b) != (0, 0) {
        return Err(refusal::ANNOTATION);
    }
    match slot.converted {
        converted::NONE => Ok(Annotation::None),
        converted::INTERVAL => Ok(Annotation::Interval),
        converted::MAP_KEY_VALUE if under_map => Ok(Annotation::None),
        code => Logical::backward(code).map(Annotation::Logical).ok_or(refusal::ANNOTATION),
    }
}

/// Rule 11: precision and scale of a DECIMAL on a physical type that may have one.
pub fn is_decimal(edition: Edition, physical: u8, type_length: i32, precision: i32, scale: i32) -> bool {
    let most = match physical {
        physical::INT32 => 9,
        physical::INT64 => 18,
        physical::FIXED => match usize::try_from(type_length).ok().and_then(decimal::greatest_precision) {
            Some(most) => most as i32,
            None => return false,
        },
        _ => i32::MAX,
    };
    (1..=most).contains(&precision) && is_scale(edition, scale, precision)
}

/// Whether a scale goes with a precision.
fn is_scale(edition: Edition, scale: i32, precision: i32) -> bool {
    0 <= scale && (scale < precision || scale == precision && edition.scale_may_equal_precision())
}

/// The converted type, logical type and parameters that a rewritten slot has.
pub fn rewritten(annotation: Annotation) -> [u8; 4] {
    match annotation {
        Annotation::None => [converted::NONE, logical::NONE, 0, 0],
        Annotation::Interval => [converted::INTERVAL, logical::NONE, 0, 0],
        Annotation::Logical(logical) => {
            let (a, b) = logical.parameters();
            [logical.forward().unwrap_or(converted::NONE), logical.code(), a, b]
        }
    }
}
