//! The words for the numbers of rows and slots, by the names of document 01.

use griffeljol::codes::{converted, edge_rule, kind, logical, physical, repetition, role, unit};
use griffeljol::Row;

/// What stands for an annotation, a parameter or a repetition that is not there.
pub const NONE: &str = "none";

/// A node's type, with its length if it has one.
pub fn type_of(row: &Row) -> String {
    let name = physical(row.physical);
    match row.physical {
        physical::FIXED_LEN_BYTE_ARRAY => format!("{name}({})", row.type_length),
        _ => name.to_owned(),
    }
}

/// A physical type, or group.
pub fn physical(code: u32) -> &'static str {
    match code {
        physical::BOOLEAN => "BOOLEAN",
        physical::INT32 => "INT32",
        physical::INT64 => "INT64",
        physical::INT96 => "INT96",
        physical::FLOAT => "FLOAT",
        physical::DOUBLE => "DOUBLE",
        physical::BYTE_ARRAY => "BYTE_ARRAY",
        physical::FIXED_LEN_BYTE_ARRAY => "FIXED_LEN_BYTE_ARRAY",
        physical::GROUP => "group",
        _ => "physical unknown",
    }
}

/// A node's annotation with its parameters, if it has one.
pub fn annotation(row: &Row) -> Option<String> {
    Some(match row.kind {
        kind::PLAIN_LEAF | kind::PLAIN_GROUP => return None,
        kind::DECIMAL => format!("DECIMAL(precision {}, scale {})", row.p1, row.p2),
        kind::TIME | kind::TIMESTAMP => format!("{}({}, {})", logical(row.kind), unit_name(row.p1), adjusted(row.p2)),
        kind::INTEGER => format!("INT({}, {})", row.p1, signed(row.p2)),
        kind::GEOGRAPHY => format!("GEOGRAPHY({})", edge_rule_name(row.p1)),
        kind::INTERVAL => "INTERVAL".to_owned(),
        // Every other kind has the code of its logical type.
        code => logical(code).to_owned(),
    })
}

/// A logical type.
pub fn logical(code: u32) -> &'static str {
    match code {
        logical::NONE => NONE,
        logical::STRING => "STRING",
        logical::MAP => "MAP",
        logical::LIST => "LIST",
        logical::ENUM => "ENUM",
        logical::DECIMAL => "DECIMAL",
        logical::DATE => "DATE",
        logical::TIME => "TIME",
        logical::TIMESTAMP => "TIMESTAMP",
        logical::INTEGER => "INTEGER",
        logical::UNKNOWN => "UNKNOWN",
        logical::JSON => "JSON",
        logical::BSON => "BSON",
        logical::UUID => "UUID",
        logical::GEOMETRY => "GEOMETRY",
        logical::GEOGRAPHY => "GEOGRAPHY",
        _ => "logical unknown",
    }
}

/// A converted type.
pub fn converted(code: u32) -> &'static str {
    match code {
        converted::UTF8 => "UTF8",
        converted::MAP => "MAP",
        converted::MAP_KEY_VALUE => "MAP_KEY_VALUE",
        converted::LIST => "LIST",
        converted::ENUM => "ENUM",
        converted::DECIMAL => "DECIMAL",
        converted::DATE => "DATE",
        converted::TIME_MILLIS => "TIME_MILLIS",
        converted::TIME_MICROS => "TIME_MICROS",
        converted::TIMESTAMP_MILLIS => "TIMESTAMP_MILLIS",
        converted::TIMESTAMP_MICROS => "TIMESTAMP_MICROS",
        converted::UINT_8 => "UINT_8",
        converted::UINT_16 => "UINT_16",
        converted::UINT_32 => "UINT_32",
        converted::UINT_64 => "UINT_64",
        converted::INT_8 => "INT_8",
        converted::INT_16 => "INT_16",
        converted::INT_32 => "INT_32",
        converted::INT_64 => "INT_64",
        converted::JSON => "JSON",
        converted::BSON => "BSON",
        converted::INTERVAL => "INTERVAL",
        converted::NONE => NONE,
        _ => "converted unknown",
    }
}

/// Parameter a of a slot with this logical type, if the type takes one.
pub fn parameter_a(logical: u32, a: u32) -> String {
    match logical {
        logical::INTEGER => format!("{a} bits"),
        logical::TIME | logical::TIMESTAMP => unit_name(a).to_owned(),
        logical::GEOGRAPHY => edge_rule_name(a).to_owned(),
        _ => NONE.to_owned(),
    }
}

/// Parameter b of a slot with this logical type, if the type takes one.
pub fn parameter_b(logical: u32, b: u32) -> &'static str {
    match logical {
        logical::INTEGER => signed(b),
        logical::TIME | logical::TIMESTAMP => adjusted(b),
        _ => NONE,
    }
}

/// A time unit.
fn unit_name(code: u32) -> &'static str {
    match code {
        unit::MILLIS => "MILLIS",
        unit::MICROS => "MICROS",
        unit::NANOS => "NANOS",
        _ => "unit unknown",
    }
}

/// An edge rule.
fn edge_rule_name(code: u32) -> &'static str {
    match code {
        edge_rule::SPHERICAL => "SPHERICAL",
        edge_rule::VINCENTY => "VINCENTY",
        edge_rule::THOMAS => "THOMAS",
        edge_rule::ANDOYER => "ANDOYER",
        edge_rule::KARNEY => "KARNEY",
        _ => "edge rule unknown",
    }
}

/// Whether times are adjusted to UTC.
fn adjusted(utc: u32) -> &'static str {
    if utc == 1 {
        "UTC"
    } else {
        "local"
    }
}

/// Whether an INTEGER is signed.
fn signed(signed: u32) -> &'static str {
    if signed == 1 {
        "signed"
    } else {
        "unsigned"
    }
}

/// A repetition, if it is one.
pub fn repetition(code: u32) -> Option<&'static str> {
    match code {
        repetition::REQUIRED => Some("required"),
        repetition::OPTIONAL => Some("optional"),
        repetition::REPEATED => Some("repeated"),
        _ => None,
    }
}

/// A node's role.
pub fn role(row: &Row) -> &'static str {
    match row.role {
        role::FIELD => "field",
        role::LIST_LAYER => "list layer",
        role::ELEMENT => "element",
        role::ELEMENT_LAYER => "element layer",
        role::KEY_VALUE_LAYER => "key_value layer",
        role::KEY => "key",
        role::VALUE => "value",
        role::BARE_REPEATED => "bare repeated",
        _ => "role unknown",
    }
}
