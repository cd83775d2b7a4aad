//! Decimals as bytes: big-endian two's complement numbers of 1 to 256 bytes.

use std::cmp::Ordering;

/// The most bytes of a number.
pub const MAX_LENGTH: usize = 256;

/// Whether a number may have so many bytes.
pub fn is_length(length: usize) -> bool {
    (1..=MAX_LENGTH).contains(&length)
}

/// The greatest d with 10^d <= 2^(8n-1) - 1 for n bytes; none where a number may not have so many.
pub fn greatest_precision(length: usize) -> Option<u32> {
    is_length(length).then(|| u32::from(GREATEST_PRECISION[length - 1]))
}

/// By bytes, less one. 10^d < 2^m exactly where d < m log10(2), which is never whole; that the digits of the logarithm
/// written here are enough for every entry is tested with whole numbers.
const GREATEST_PRECISION: [u16; MAX_LENGTH] = {
    const LOG10_2: (u64, u64) = (301_029_995_663_981, 1_000_000_000_000_000);
    let mut table = [0; MAX_LENGTH];
    let mut length = 1;
    while length <= MAX_LENGTH {
        let bits = 8 * length as u64 - 1;
        table[length - 1] = (bits * LOG10_2.0 / LOG10_2.1) as u16;
        length += 1;
    }
    table
};

/// The order of the numbers that two stretches of bytes stand for; none where either has a wrong length.
pub fn compare(a: &[u8], b: &[u8]) -> Option<Ordering> {
    if !(is_length(a.len()) && is_length(b.len())) {
        return None;
    }
    let (a, b) = (significant(a), significant(b));
    Some(match (is_negative(a), is_negative(b)) {
        (true, false) => Ordering::Less,
        (false, true) => Ordering::Greater,
        // Of one sign, more bytes are further from zero, and as many bytes are ordered as they stand.
        (false, false) => a.len().cmp(&b.len()).then_with(|| a.cmp(b)),
        (true, true) => b.len().cmp(&a.len()).then_with(|| a.cmp(b)),
    })
}

/// Whether |number| < 10^precision; none where the number has a wrong length.
pub fn fits_precision(number: &[u8], precision: u32) -> Option<bool> {
    if !is_length(number.len()) {
        return None;
    }
    let number = significant(number);
    let most_of = |length| greatest_precision(length).unwrap_or(0);
    // The number fits in its bytes and not in one less, so the table decides most precisions.
    if precision > most_of(number.len()) {
        return Some(true);
    }
    if number.len() > 1 && precision <= most_of(number.len() - 1) {
        return Some(false);
    }
    Some(match to_i128(number) {
        Some(number) => number.unsigned_abs() < 10u128.pow(precision),
        None => magnitude(number).iter().rev().lt(power_of_ten(precision).iter().rev()),
    })
}

/// The number without the leading bytes that only repeat its sign.
fn significant(number: &[u8]) -> &[u8] {
    let mut rest = number;
    while let [0x00, 0x00..=0x7F, ..] | [0xFF, 0x80..=0xFF, ..] = rest {
        rest = &rest[1..];
    }
    rest
}

fn is_negative(number: &[u8]) -> bool {
    number[0] >= 0x80
}

/// The number where 16 bytes hold it.
fn to_i128(number: &[u8]) -> Option<i128> {
    let mut wide = [if is_negative(number) { 0xFF } else { 0x00 }; 16];
    let start = wide.len().checked_sub(number.len())?;
    wide[start..].copy_from_slice(number);
    Some(i128::from_be_bytes(wide))
}

/// A whole number below 2^2048, the least digit first.
type Digits = [u32; MAX_LENGTH / 4];

/// The number without its sign: where it is negative, each bit turned and 1 added.
fn magnitude(number: &[u8]) -> Digits {
    let turn = if is_negative(number) { 0xFF } else { 0x00 };
    let mut digits = [0; MAX_LENGTH / 4];
    for (i, &byte) in number.iter().rev().enumerate() {
        digits[i / 4] |= u32::from(byte ^ turn) << (8 * (i % 4));
    }
    if is_negative(number) {
        for digit in &mut digits {
            let (sum, carried) = digit.overflowing_add(1);
            *digit = sum;
            if !carried {
                break;
            }
        }
    }
    digits
}

/// 10^exponent, for an exponent that the table has.
fn power_of_ten(exponent: u32) -> Digits {
    const STEP: u32 = 9;
    let mut power = [0; MAX_LENGTH / 4];
    power[0] = 10u32.pow(exponent % STEP);
    for _ in 0..exponent / STEP {
        let mut carry = 0;
        for digit in &mut power {
            let product = u64::from(*digit) * u64::from(10u32.pow(STEP)) + carry;
            *digit = product as u32;
            carry = product >> 32;
        }
    }
    power
}
