//! Decimals of 1, 4, 8 and 16 bytes as plain integers.

use std::cmp::Ordering;

/// Powers of ten that 128 bits hold.
const POWERS: [u128; 39] = {
    let mut powers = [1; 39];
    let mut at = 1;
    while at < powers.len() {
        powers[at] = powers[at - 1] * 10;
        at += 1;
    }
    powers
};

/// The number of big-endian bytes.
fn big(bytes: &[u8]) -> i128 {
    match bytes.len() {
        1 => i8::from_be_bytes([bytes[0]]).into(),
        4 => i32::from_be_bytes(bytes.try_into().expect("four")).into(),
        8 => i64::from_be_bytes(bytes.try_into().expect("eight")).into(),
        _ => i128::from_be_bytes(bytes.try_into().expect("sixteen")),
    }
}

/// The number of an INT32's or INT64's bytes.
fn little(bytes: &[u8]) -> i64 {
    match bytes.len() {
        4 => i32::from_le_bytes(bytes.try_into().expect("four")).into(),
        _ => i64::from_le_bytes(bytes.try_into().expect("eight")),
    }
}

/// The order of two numbers of big-endian bytes.
pub fn order_big(a: &[u8], b: &[u8]) -> Ordering {
    big(a).cmp(&big(b))
}

/// The order of two numbers of as many bytes, whatever their length: that of the bytes once the sign bit is turned.
pub fn order_bytes(a: &[u8], b: &[u8]) -> Ordering {
    (a[0] ^ 0x80, &a[1..]).cmp(&(b[0] ^ 0x80, &b[1..]))
}

/// Whether a number of big-endian bytes is nearer to 0 than 10^precision.
pub fn fits_big(bytes: &[u8], precision: u32) -> bool {
    POWERS.get(precision as usize).is_none_or(|&power| big(bytes).unsigned_abs() < power)
}

/// The same of an INT32's or INT64's bytes.
pub fn fits_little(bytes: &[u8], precision: u32) -> bool {
    POWERS.get(precision as usize).is_none_or(|&power| u128::from(little(bytes).unsigned_abs()) < power)
}
