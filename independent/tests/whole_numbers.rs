//! Facts that are checked for every case by other means than the library's own: days by stepping, decimals by long arithmetic.

use std::cmp::Ordering;

use independent::decimal::{compare, fits_precision, greatest_precision, MAX_LENGTH};
use independent::utf8::valid_up_to;
use independent::{decode, encode, Fields};

/// Every day of the years -801 to 2401 follows the one before.
#[test]
fn days_follow_one_another() {
    let lengths = |year: i64| {
        let leap = year.rem_euclid(4) == 0 && (year.rem_euclid(100) != 0 || year.rem_euclid(400) == 0);
        [31, if leap { 29 } else { 28 }, 31, 30, 31, 30, 31, 31, 30, 31, 30, 31]
    };
    let mut count =
        encode(1, &Fields { year: -801, month: 1, day: 1, hour: 0, minute: 0, second: 0, fraction: 0 }).unwrap();
    for year in -801..=2401 {
        for (month, days) in (1..).zip(lengths(year)) {
            for day in 1..=days {
                let fields = Fields { year, month, day, hour: 0, minute: 0, second: 0, fraction: 0 };
                assert_eq!(decode(1, count), Ok(fields));
                assert_eq!(encode(1, &fields), Ok(count));
                count += 86_400_000;
            }
            let beyond = Fields { year, month, day: days + 1, hour: 0, minute: 0, second: 0, fraction: 0 };
            assert_eq!(encode(1, &beyond).unwrap_err().number, 18);
        }
    }
    assert_eq!(decode(1, count).unwrap().year, 2402);
}

/// A big-endian number times ten, and a small number more.
fn times_ten_plus(number: &mut [u8], small: u16) {
    let mut carry = small;
    for byte in number.iter_mut().rev() {
        let product = u16::from(*byte) * 10 + carry;
        *byte = product as u8;
        carry = product >> 8;
    }
    assert_eq!(carry, 0);
}

/// The table against powers of ten: 10^d <= 2^(8n-1) - 1 is that 10^d has at most 8n - 1 bits.
#[test]
fn precision_table() {
    const SIZE: usize = MAX_LENGTH + 1;
    let mut power = [0; SIZE];
    power[SIZE - 1] = 1;
    let mut digits = 0;
    for length in 1..=MAX_LENGTH {
        let holds = |power: &[u8]| power[..SIZE - length].iter().all(|&byte| byte == 0) && power[SIZE - length] < 0x80;
        let mut next = power;
        times_ten_plus(&mut next, 0);
        while holds(&next) {
            power = next;
            digits += 1;
            times_ten_plus(&mut next, 0);
        }
        assert_eq!(greatest_precision(length), Some(digits));
    }
    assert_eq!((greatest_precision(0), greatest_precision(MAX_LENGTH + 1)), (None, None));
}

/// Numbers of d nines fit d digits and not d - 1, one more has d + 1; so do minus these; at every length that holds them.
#[test]
fn bounds_of_every_precision() {
    const SIZE: usize = MAX_LENGTH;
    let mut nines = [0; SIZE];
    for digits in 1..=616 {
        times_ten_plus(&mut nines, 9);
        let minus = |number: &[u8]| {
            let mut turned: Vec<u8> = number.iter().map(|byte| !byte).collect();
            for byte in turned.iter_mut().rev() {
                *byte = byte.wrapping_add(1);
                if *byte != 0 {
                    break;
                }
            }
            turned
        };
        let mut power = nines;
        for byte in power.iter_mut().rev() {
            *byte = byte.wrapping_add(1);
            if *byte != 0 {
                break;
            }
        }
        let shortest = SIZE - power.iter().take_while(|&&byte| byte == 0).count() + 1;
        for length in [shortest, shortest + 1, SIZE].into_iter().filter(|&length| length <= SIZE) {
            for (number, fits) in [(&nines[..], digits), (&power, digits + 1)] {
                for number in [number.to_vec(), minus(number)] {
                    let number = &number[SIZE - length..];
                    assert_eq!(fits_precision(number, fits), Some(true), "{fits} digits in {length} bytes");
                    assert_eq!(fits_precision(number, fits - 1), Some(false), "{fits} digits in {length} bytes");
                }
            }
            assert_eq!(compare(&nines[SIZE - length..], &power), Some(Ordering::Less));
            assert_eq!(compare(&minus(&nines)[SIZE - length..], &minus(&power)), Some(Ordering::Greater));
            assert_eq!(compare(&minus(&nines)[SIZE - length..], &nines), Some(Ordering::Less));
            assert_eq!(compare(&nines[SIZE - length..], &nines), Some(Ordering::Equal));
        }
    }
}

/// All numbers of one and two bytes compare as i16 does.
#[test]
fn short_numbers_compare_as_numbers() {
    let numbers: Vec<(i16, Vec<u8>)> = (i8::MIN..=i8::MAX)
        .map(|x| (x.into(), vec![x as u8]))
        .chain((i16::MIN..=i16::MAX).step_by(97).map(|x| (x, x.to_be_bytes().to_vec())))
        .collect();
    for (x, a) in &numbers {
        for (y, b) in &numbers {
            assert_eq!(compare(a, b), Some(x.cmp(y)));
        }
        for precision in 0..6 {
            assert_eq!(fits_precision(a, precision), Some(i32::from(*x).abs() < 10i32.pow(precision)));
        }
    }
}

/// The encoding of every scalar value is a sequence; every text of up to three octets stops where std's check stops.
#[test]
fn sequences() {
    let mut buffer = [0; 4];
    for scalar in (0..=0x10_FFFF).filter_map(char::from_u32) {
        let text = scalar.encode_utf8(&mut buffer).as_bytes();
        assert_eq!(valid_up_to(text), text.len());
        assert_eq!(valid_up_to(&text[..text.len() - 1]), 0);
    }
    let stop = |text: &[u8]| std::str::from_utf8(text).map_or_else(|fault| fault.valid_up_to(), str::len);
    for number in 0u32..0x100_0000 {
        let [_, a, b, c] = number.to_be_bytes();
        if b >= 0x80 || b % 16 == 0 {
            assert_eq!(valid_up_to(&[a, b, c]), stop(&[a, b, c]));
        }
    }
}
