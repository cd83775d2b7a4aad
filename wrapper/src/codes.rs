//! The numbers that rows, slots, column types and answers are made of, under document 01's names.
#![allow(missing_docs)]

/// Physical types.
pub mod physical {
    pub const BOOLEAN: u32 = 0;
    pub const INT32: u32 = 1;
    pub const INT64: u32 = 2;
    pub const INT96: u32 = 3;
    pub const FLOAT: u32 = 4;
    pub const DOUBLE: u32 = 5;
    pub const BYTE_ARRAY: u32 = 6;
    pub const FIXED_LEN_BYTE_ARRAY: u32 = 7;
    pub const GROUP: u32 = 255;
}

/// Repetitions. Only the root has none.
pub mod repetition {
    pub const REQUIRED: u32 = 0;
    pub const OPTIONAL: u32 = 1;
    pub const REPEATED: u32 = 2;
    pub const NONE: u32 = 255;
}

/// Kinds. The parameters p1 and p2 are precision and scale of a DECIMAL; unit and UTC (1 or 0) of a TIME or TIMESTAMP; bit
/// width and signed (1 or 0) of an INTEGER; edge rule and 0 of a GEOGRAPHY; else 0.
pub mod kind {
    pub const PLAIN_LEAF: u32 = 0;
    pub const STRING: u32 = 1;
    pub const MAP: u32 = 2;
    pub const LIST: u32 = 3;
    pub const ENUM: u32 = 4;
    pub const DECIMAL: u32 = 5;
    pub const DATE: u32 = 6;
    pub const TIME: u32 = 7;
    pub const TIMESTAMP: u32 = 8;
    pub const INTEGER: u32 = 10;
    pub const UNKNOWN: u32 = 11;
    pub const JSON: u32 = 12;
    pub const BSON: u32 = 13;
    pub const UUID: u32 = 14;
    /// In edition 3, as the next.
    pub const GEOMETRY: u32 = 17;
    pub const GEOGRAPHY: u32 = 18;
    pub const INTERVAL: u32 = 21;
    pub const PLAIN_GROUP: u32 = 30;
}

/// Converted types, as a slot has them.
pub mod converted {
    pub const UTF8: u32 = 0;
    pub const MAP: u32 = 1;
    pub const MAP_KEY_VALUE: u32 = 2;
    pub const LIST: u32 = 3;
    pub const ENUM: u32 = 4;
    pub const DECIMAL: u32 = 5;
    pub const DATE: u32 = 6;
    pub const TIME_MILLIS: u32 = 7;
    pub const TIME_MICROS: u32 = 8;
    pub const TIMESTAMP_MILLIS: u32 = 9;
    pub const TIMESTAMP_MICROS: u32 = 10;
    pub const UINT_8: u32 = 11;
    pub const UINT_16: u32 = 12;
    pub const UINT_32: u32 = 13;
    pub const UINT_64: u32 = 14;
    pub const INT_8: u32 = 15;
    pub const INT_16: u32 = 16;
    pub const INT_32: u32 = 17;
    pub const INT_64: u32 = 18;
    pub const JSON: u32 = 19;
    pub const BSON: u32 = 20;
    pub const INTERVAL: u32 = 21;
    pub const NONE: u32 = 255;
}

/// Logical types, as a slot has them: none, or the number of their kind.
pub mod logical {
    pub use super::kind::{
        BSON, DATE, DECIMAL, ENUM, GEOGRAPHY, GEOMETRY, INTEGER, JSON, LIST, MAP, STRING, TIME, TIMESTAMP, UNKNOWN,
        UUID,
    };
    pub const NONE: u32 = 0;
}

/// Codes of the entries of a comparison. That of a field is where its first byte stands in the slot.
pub mod difference {
    pub const PHYSICAL: u32 = 0;
    pub const REPETITION: u32 = 1;
    pub const CONVERTED: u32 = 2;
    pub const LOGICAL: u32 = 3;
    pub const A: u32 = 4;
    pub const B: u32 = 5;
    pub const CHILD_COUNT: u32 = 6;
    pub const TYPE_LENGTH: u32 = 8;
    pub const SCALE: u32 = 12;
    pub const PRECISION: u32 = 16;
    pub const NAME_LENGTH: u32 = 20;
    pub const NAME: u32 = 24;
    pub const PLACE: u32 = 72;
    pub const ONLY_FIRST: u32 = 73;
    pub const ONLY_SECOND: u32 = 74;
}

/// Roles.
pub mod role {
    pub const FIELD: u32 = 0;
    pub const LIST_LAYER: u32 = 1;
    pub const ELEMENT: u32 = 2;
    /// A group layer that is the element.
    pub const ELEMENT_LAYER: u32 = 3;
    pub const KEY_VALUE_LAYER: u32 = 4;
    pub const KEY: u32 = 5;
    pub const VALUE: u32 = 6;
    pub const BARE_REPEATED: u32 = 7;
}

/// Time units.
pub mod unit {
    pub const MILLIS: u32 = 1;
    pub const MICROS: u32 = 2;
    pub const NANOS: u32 = 3;
}

/// Edge rules: how the points between two vertices of a GEOGRAPHY are found.
pub mod edge_rule {
    pub const SPHERICAL: u32 = 0;
    pub const VINCENTY: u32 = 1;
    pub const THOMAS: u32 = 2;
    pub const ANDOYER: u32 = 3;
    pub const KARNEY: u32 = 4;
}

/// The cases of a read value.
pub(crate) mod case {
    pub const TRUTH: u32 = 0;
    pub const SIGNED: u32 = 1;
    pub const UNSIGNED: u32 = 2;
    pub const FLOAT: u32 = 3;
    pub const DOUBLE: u32 = 4;
    pub const BYTES: u32 = 5;
}

/// The answers of an order.
pub(crate) mod order {
    pub const LESS: u32 = 0;
    pub const EQUAL: u32 = 1;
    pub const GREATER: u32 = 2;
    pub const UNORDERED: u32 = 3;
}
