//! Bytes in hexadecimal.

use std::ffi::OsStr;

use crate::failure::Failure;

/// The bytes that pairs of hexadecimal digits stand for.
pub fn bytes(hex: &OsStr) -> Result<Vec<u8>, Failure> {
    let digit = |byte: u8| char::from(byte).to_digit(16).map(|digit| digit as u8);
    hex.as_encoded_bytes()
        .chunks(2)
        .map(|pair| match *pair {
            [high, low] => Some(digit(high)? << 4 | digit(low)?),
            _ => None,
        })
        .collect::<Option<_>>()
        .ok_or_else(|| Failure::arguments(format!("HEX cannot be {hex:?}: it is pairs of hexadecimal digits")))
}

/// Two digits for each byte.
pub fn shown(bytes: &[u8]) -> String {
    bytes.iter().map(|byte| format!("{byte:02x}")).collect()
}
