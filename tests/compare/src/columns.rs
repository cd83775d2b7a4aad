//! Column types near the lawful ones, and values at the edges of their lengths and annotations.

use std::sync::OnceLock;

use independent::annotation::Logical;
use independent::codes::physical::{BOOLEAN, BYTE_ARRAY, DOUBLE, FIXED, FLOAT, INT32, INT64, INT96};
use independent::codes::{kind, logical};
use independent::decimal::{greatest_precision, MAX_LENGTH};
use independent::value::MAX_VALUE;

use crate::random::Random;
use crate::trees::{random_logical, random_physical};

/// Physical type, type length, kind, p1, p2.
pub type Column = [u32; 5];

/// A column type: lawful in some edition most of the time, else with a number or two of it changed.
pub fn column(random: &mut Random) -> Column {
    let mut column = lawful_column(random);
    if random.percent(25) {
        for _ in 0..random.between(1, 2) {
            let at = random.below(column.len());
            column[at] = other_number(random, column[at]);
        }
    }
    if column[2] == logical::GEOGRAPHY.into() && random.percent(10) {
        // The last edge rule, and one that there is not.
        column[3] = random.pick(&[4, 5]);
    }
    column
}

fn other_number(random: &mut Random, number: u32) -> u32 {
    let any = random.of_any_size() as u32;
    let small = random.below(32) as u32;
    random.pick(&[
        number.wrapping_add(1),
        number.wrapping_sub(1),
        number.wrapping_add(256),
        number ^ 1 << 31,
        i32::MAX as u32,
        0,
        small,
        small,
        any,
    ])
}

fn lawful_column(random: &mut Random) -> Column {
    match random.below(8) {
        0 | 1 => {
            let physical = random.below(usize::from(FIXED) + 1) as u8;
            [physical.into(), type_length(random, physical), kind::PLAIN_LEAF.into(), 0, 0]
        }
        2 => [FIXED.into(), 12, kind::INTERVAL.into(), 0, 0],
        _ => {
            let logical = random_logical(random);
            let physical = random_physical(random, logical);
            let (a, b) = logical.parameters();
            match logical {
                Logical::Decimal => decimal_column(random, physical),
                Logical::Uuid => [physical.into(), 16, logical.code().into(), 0, 0],
                _ => [physical.into(), type_length(random, physical), logical.code().into(), a.into(), b.into()],
            }
        }
    }
}

fn type_length(random: &mut Random, physical: u8) -> u32 {
    if physical != FIXED {
        return 0;
    }
    let short = random.between(1, 40) as u32;
    if random.percent(2) {
        random.pick(&[65_536, 65_537, i32::MAX as u32])
    } else {
        random.pick(&[1, 12, 16, 255, 256, 257, short])
    }
}

fn decimal_column(random: &mut Random, physical: u8) -> Column {
    let length = match random.below(4) {
        0 => random.between(1, MAX_LENGTH),
        1 => random.pick(&[1, 2, 4, 8, 16, 17, 255, 256]),
        _ => random.between(1, 20),
    };
    let (type_length, most) = match physical {
        INT32 => (0, 9),
        INT64 => (0, 18),
        FIXED => (length, greatest_precision(length).expect("a length of the table") as usize),
        _ => (0, random.pick(&[3, 18, 38, 620, i32::MAX as usize])),
    };
    let any = random.between(1, most);
    let precision = random.pick(&[1, most, any]);
    // In the second edition the scale may equal the precision.
    let any = random.below(precision);
    let scale = random.pick(&[0, any, any, precision]);
    [physical.into(), type_length as u32, logical::DECIMAL.into(), precision as u32, scale as u32]
}

/// Whether a column's values are text.
pub fn is_text([physical, _, kind, ..]: Column) -> bool {
    physical == BYTE_ARRAY.into() && [logical::STRING, logical::ENUM, logical::JSON].map(u32::from).contains(&kind)
}

/// A value for a column: of a right length most of the time, and near what its annotation allows.
pub fn value(random: &mut Random, column: Column) -> Vec<u8> {
    let [physical, type_length, kind, p1, _] = column;
    let (physical, kind) = (physical as u8, kind as u8);
    let is_decimal = kind == logical::DECIMAL;
    let mut value = match physical {
        BOOLEAN => vec![random.pick(&[0, 1, 0, 1, 2, 128, 255])],
        INT32 => whole_number(random, kind, p1, 32).to_le_bytes()[..4].to_vec(),
        INT64 => whole_number(random, kind, p1, 64).to_le_bytes()[..8].to_vec(),
        FLOAT => float(random, 8, 23).to_le_bytes()[..4].to_vec(),
        DOUBLE => float(random, 11, 52).to_le_bytes()[..8].to_vec(),
        INT96 => random_bytes(random, 12),
        FIXED if is_decimal && type_length <= MAX_LENGTH as u32 => decimal(random, p1, type_length.max(1) as usize),
        FIXED => random_bytes(random, (type_length as usize).min(MAX_VALUE + 1)),
        BYTE_ARRAY if is_decimal => {
            let length = random.pick(&[1, 2, 3, 8, 16, 17, 32, 255, 256]);
            decimal(random, p1, length)
        }
        BYTE_ARRAY if is_text(column) => text(random),
        _ => {
            let length = random.below(24);
            random_bytes(random, length)
        }
    };
    if random.percent(12) {
        change_length(random, &mut value);
    }
    value
}

fn change_length(random: &mut Random, value: &mut Vec<u8>) {
    let length = value.len();
    let short = random.below(20);
    let other = random.pick(&[length + 1, length.saturating_sub(1), 0, 1, 4, 8, 12, 256, 257, short]);
    let other = if random.percent(3) { random.pick(&[MAX_VALUE, MAX_VALUE + 1]) } else { other };
    value.resize(other, random.pick(&[0, 0xFF, b'a']));
}

fn random_bytes(random: &mut Random, length: usize) -> Vec<u8> {
    let mut bytes = vec![random.pick(&[0, 0xFF, 0x80]); length];
    if random.percent(70) {
        random.fill(&mut bytes);
    }
    bytes
}

/// A whole number near the bounds of a kind, of a width, or anywhere.
fn whole_number(random: &mut Random, kind: u8, p1: u32, bits: u32) -> i128 {
    let near = random.below(3) as i128 - 1;
    let sign = random.pick(&[1, -1]);
    match (random.below(4), kind) {
        (0, _) => random.of_any_size() as i64 as i128 * sign,
        (1 | 2, logical::TIME) => {
            let ticks = random.pick(&[1_000, 1_000_000, 1_000_000_000]);
            let days = random.pick(&[0, 0, 86_400, 86_400, 86_399, 43_200]);
            days * ticks * random.pick(&[1, 1, 1, -1]) + near
        }
        (1 | 2, logical::DECIMAL) => sign * (10i128.pow(p1.min(20)) + near),
        (1 | 2, logical::INTEGER) if p1 > 0 => sign * (1i128 << random.pick(&[p1.min(64), p1.min(64) - 1])) + near,
        _ => sign * (1i128 << random.pick(&[0, 7, 8, 15, 16, bits - 1, bits])) + near,
    }
}

/// The bits of a float, with so many of the exponent and of the fraction, at the edges of either.
fn float(random: &mut Random, exponent_bits: u32, fraction_bits: u32) -> u64 {
    let greatest = (1u64 << exponent_bits) - 1;
    let any = random.any();
    let exponent = random.pick(&[0, 1, greatest / 2, greatest - 1, greatest, greatest, any & greatest]);
    let all = (1u64 << fraction_bits) - 1;
    let fraction = random.pick(&[0, 0, 1, all, 1 << (fraction_bits - 1), any >> 12 & all]);
    let sign = random.below(2) as u64;
    (sign << exponent_bits | exponent) << fraction_bits | fraction
}

/// A text of valid sequences, or with a byte of it changed, or cut; behind plain letters at times, which put a bad byte further on.
fn text(random: &mut Random) -> Vec<u8> {
    let letters = if random.percent(1) { random.below(MAX_VALUE) } else { random.below(40) };
    let mut text = if random.percent(25) { "a".repeat(letters) } else { String::new() };
    for _ in 0..random.below(8) {
        let scalar = match random.below(6) {
            0..2 => random.below(0x80),
            2 => random.between(0x80, 0x7FF),
            3 => random.between(0x800, 0xFFFF),
            4 => random.between(0x1_0000, 0x10_FFFF),
            _ => random.pick(&[0, 0x7F, 0x80, 0x7FF, 0x800, 0xD7FF, 0xE000, 0xFFFF, 0x1_0000, 0x10_FFFF]),
        };
        text.extend(char::from_u32(scalar as u32));
    }
    let mut bytes = text.into_bytes();
    match random.below(5) {
        0 => {
            const OCTETS: [u8; 18] = [
                0x7F, 0x80, 0x8F, 0x90, 0x9F, 0xA0, 0xBF, 0xC0, 0xC1, 0xC2, 0xDF, 0xE0, 0xED, 0xEF, 0xF0, 0xF4, 0xF5,
                0xFF,
            ];
            if !bytes.is_empty() {
                let at = random.below(bytes.len());
                bytes[at] = random.pick(&OCTETS);
            }
        }
        1 => bytes.truncate(random.below(bytes.len() + 1)),
        2 if random.percent(50) => {
            // Sequences that only nearly are: overlong, surrogates, too great.
            let near: [&[u8]; 8] = [
                b"\xC1\xBF",
                b"\xE0\x9F\xBF",
                b"\xED\xA0\x80",
                b"\xED\xBF\xBF",
                b"\xF0\x8F\xBF\xBF",
                b"\xF4\x90\x80\x80",
                b"\xF5\x80\x80\x80",
                b"\xE1\x80",
            ];
            let tail = random.below(3);
            bytes.extend(random.pick(&near));
            bytes.extend(&b"abc"[..tail]);
        }
        _ => {}
    }
    bytes
}

/// Powers of ten as big-endian bytes, the first bit of each 0.
fn powers() -> &'static [Vec<u8>] {
    static POWERS: OnceLock<Vec<Vec<u8>>> = OnceLock::new();
    POWERS.get_or_init(|| {
        let mut powers = vec![vec![1]];
        for _ in 0..616 {
            let mut next = powers.last().expect("at least one").clone();
            let mut carry = 0;
            for byte in next.iter_mut().rev() {
                let product = u32::from(*byte) * 10 + carry;
                *byte = product as u8;
                carry = product >> 8;
            }
            if carry > 0 {
                next.insert(0, carry as u8);
            }
            if next[0] >= 0x80 {
                next.insert(0, 0);
            }
            powers.push(next);
        }
        powers
    })
}

/// A decimal near plus or minus the power of ten of its precision, or of another, or any, in so many bytes where they
/// hold it.
fn decimal(random: &mut Random, precision: u32, length: usize) -> Vec<u8> {
    if random.percent(35) {
        let mut bytes = random_bytes(random, length);
        let sign_bytes = random.below(length);
        if random.percent(50) {
            bytes[..sign_bytes].fill(random.pick(&[0, 0xFF]));
        }
        return bytes;
    }
    let exponent = precision.saturating_add_signed(random.pick(&[0, 0, 0, -1, 1]));
    let power = &powers()[(exponent as usize).min(616)];
    let mut number = power.clone();
    let minus = random.percent(50);
    match random.below(3) {
        0 => add(&mut number, 1),
        1 => add(&mut number, -1),
        _ => {}
    }
    if minus {
        number.iter_mut().for_each(|byte| *byte = !*byte);
        add(&mut number, 1);
    }
    if number.len() > length {
        let from = number.len() - length;
        return number[from..].to_vec();
    }
    let mut extended = vec![if number[0] >= 0x80 { 0xFF } else { 0 }; length - number.len()];
    extended.extend(number);
    extended
}

/// Adds a small number to a big-endian one.
fn add(number: &mut [u8], small: i32) {
    let mut carry = small;
    for byte in number.iter_mut().rev() {
        let sum = i32::from(*byte) + carry;
        *byte = sum as u8;
        carry = sum >> 8;
    }
}

/// A second value for an order: the same, one near it, the same number in more bytes, or another.
pub fn second_value(random: &mut Random, column: Column, first: &[u8]) -> Vec<u8> {
    let mut second = first.to_vec();
    match random.below(10) {
        0 | 1 => {}
        2 | 3 if !second.is_empty() => {
            let at = random.below(second.len());
            second[at] = second[at].wrapping_add(random.pick(&[1, 255, 128]));
        }
        4 if second.len() < MAX_LENGTH => {
            let sign = if second.first().is_some_and(|&byte| byte >= 0x80) { 0xFF } else { 0 };
            second.insert(0, sign);
        }
        5 => second.push(random.pick(&[0, b'a', 0xFF])),
        6 if !second.is_empty() => second.truncate(second.len() - 1),
        7 if !second.is_empty() => {
            let last = second.len() - 1;
            second[last] ^= 0x80;
        }
        _ => return value(random, column),
    }
    second
}
