//! Big-endian two's complement numbers of a given size, for inputs: everything is modulo 256^size.

/// 10^exponent.
pub fn power_of_ten(exponent: u32, size: usize) -> Vec<u8> {
    let mut power = plus(vec![0; size], 1);
    for _ in 0..exponent {
        let mut carry = 0;
        for byte in power.iter_mut().rev() {
            let product = u32::from(*byte) * 10 + carry;
            *byte = product as u8;
            carry = product >> 8;
        }
    }
    power
}

/// The number and a small one.
pub fn plus(mut number: Vec<u8>, small: i64) -> Vec<u8> {
    let mut carry = i128::from(small);
    for byte in number.iter_mut().rev() {
        let sum = i128::from(*byte) + carry;
        *byte = sum as u8;
        carry = sum >> 8;
    }
    number
}

/// The number with every bit turned: -number - 1.
pub fn turned(number: &[u8]) -> Vec<u8> {
    number.iter().map(|byte| !byte).collect()
}

/// -number.
pub fn negated(number: &[u8]) -> Vec<u8> {
    plus(turned(number), 1)
}
