//! The numeric codes of parquet.thrift, as document 01 lists them and document 02's R-11 adds to them.

/// Physical types, and the group.
pub mod physical {
    /// One byte, 0 or 1.
    pub const BOOLEAN: u8 = 0;
    /// 32 bits.
    pub const INT32: u8 = 1;
    /// 64 bits.
    pub const INT64: u8 = 2;
    /// 12 bytes.
    pub const INT96: u8 = 3;
    /// IEEE 754, 32 bits.
    pub const FLOAT: u8 = 4;
    /// IEEE 754, 64 bits.
    pub const DOUBLE: u8 = 5;
    /// Any number of bytes.
    pub const BYTE_ARRAY: u8 = 6;
    /// As many bytes as the type length says.
    pub const FIXED: u8 = 7;
    /// No leaf.
    pub const GROUP: u8 = 255;

    /// Whether a code is in the list.
    pub fn is_listed(code: u8) -> bool {
        code <= FIXED || code == GROUP
    }
}

/// Repetitions.
pub mod repetition {
    /// Exactly one.
    pub const REQUIRED: u8 = 0;
    /// None or one.
    pub const OPTIONAL: u8 = 1;
    /// Any number.
    pub const REPEATED: u8 = 2;
    /// No repetition: the root's.
    pub const NONE: u8 = 255;

    /// Whether a code is in the list.
    pub fn is_listed(code: u8) -> bool {
        code <= REPEATED || code == NONE
    }

    /// Whether a code is required or optional.
    pub fn is_single(code: u8) -> bool {
        matches!(code, REQUIRED | OPTIONAL)
    }
}

/// Converted types, the older annotation.
#[allow(missing_docs)]
pub mod converted {
    pub const UTF8: u8 = 0;
    pub const MAP: u8 = 1;
    pub const MAP_KEY_VALUE: u8 = 2;
    pub const LIST: u8 = 3;
    pub const ENUM: u8 = 4;
    pub const DECIMAL: u8 = 5;
    pub const DATE: u8 = 6;
    pub const TIME_MILLIS: u8 = 7;
    pub const TIME_MICROS: u8 = 8;
    pub const TIMESTAMP_MILLIS: u8 = 9;
    pub const TIMESTAMP_MICROS: u8 = 10;
    pub const UINT_8: u8 = 11;
    pub const UINT_16: u8 = 12;
    pub const UINT_32: u8 = 13;
    pub const UINT_64: u8 = 14;
    pub const INT_8: u8 = 15;
    pub const INT_16: u8 = 16;
    pub const INT_32: u8 = 17;
    pub const INT_64: u8 = 18;
    pub const JSON: u8 = 19;
    pub const BSON: u8 = 20;
    pub const INTERVAL: u8 = 21;
    pub const NONE: u8 = 255;

    /// Whether a code is in the list.
    pub fn is_listed(code: u8) -> bool {
        code <= INTERVAL || code == NONE
    }
}

/// Logical types, the newer annotation.
#[allow(missing_docs)]
pub mod logical {
    pub const NONE: u8 = 0;
    pub const STRING: u8 = 1;
    pub const MAP: u8 = 2;
    pub const LIST: u8 = 3;
    pub const ENUM: u8 = 4;
    pub const DECIMAL: u8 = 5;
    pub const DATE: u8 = 6;
    pub const TIME: u8 = 7;
    pub const TIMESTAMP: u8 = 8;
    pub const INTEGER: u8 = 10;
    pub const UNKNOWN: u8 = 11;
    pub const JSON: u8 = 12;
    pub const BSON: u8 = 13;
    pub const UUID: u8 = 14;
    pub const GEOMETRY: u8 = 17;
    pub const GEOGRAPHY: u8 = 18;

    /// Whether a code is in document 01's list.
    pub fn is_listed(code: u8) -> bool {
        matches!(code, NONE..=TIMESTAMP | INTEGER..=UUID)
    }

    /// Whether a code is one of those that document 02's R-11 adds.
    pub fn is_geospatial(code: u8) -> bool {
        matches!(code, GEOMETRY | GEOGRAPHY)
    }
}

/// Kinds of a row that are no logical type's code.
pub mod kind {
    /// A leaf without annotation.
    pub const PLAIN_LEAF: u8 = 0;
    /// INTERVAL, which exists only as a converted type.
    pub const INTERVAL: u8 = 21;
    /// A group without annotation.
    pub const PLAIN_GROUP: u8 = 30;
}
