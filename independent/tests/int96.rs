//! INT96 times turned into counts and back: every day, the ends, the order of refusals, and what stays in a lent buffer.

use independent::int96::{count_of, of_parts, value_of, EPOCH, SIZE};
use independent::{decode, from_int96, to_int96, Fields, Refusal};

const DAY: u64 = 86_400_000_000_000;
/// The Julian days that the least and the greatest count are in.
const DAYS: [u32; 2] = [2_333_836, 2_547_339];

fn refused<T>(number: u32) -> Result<T, Refusal> {
    Err(Refusal { number, place: 0 })
}

fn converted(of_day: u64, day: u32) -> Result<i64, Refusal> {
    count_of(&of_parts(of_day, day))
}

#[test]
fn a_value_is_nanoseconds_and_then_the_day() {
    assert_eq!(value_of(0), [0, 0, 0, 0, 0, 0, 0, 0, 0x8C, 0x3D, 0x25, 0]);
    assert_eq!(value_of(0x0102_0304_0506), [6, 5, 4, 3, 2, 1, 0, 0, 0x8C, 0x3D, 0x25, 0]);
    assert_eq!(value_of(-1), of_parts(DAY - 1, EPOCH - 1));
    let fields = Fields { year: 2000, month: 1, day: 1, hour: 12, minute: 0, second: 0, fraction: 0 };
    assert_eq!(converted(DAY / 2, 2_451_545).and_then(|count| decode(3, count)), Ok(fields));
}

/// Each day but the first and the last is whole, and begins where the one before ends.
#[test]
fn every_day_there_and_back() {
    let [first, last] = DAYS;
    let mut start = converted(0, first + 1).unwrap();
    for day in first + 1..last {
        let end = start + (DAY as i64 - 1);
        for (of_day, count) in [(0, start), (DAY / 2, start + DAY as i64 / 2), (DAY - 1, end)] {
            assert_eq!(converted(of_day, day), Ok(count));
            assert_eq!(value_of(count), of_parts(of_day, day));
        }
        start = end + 1;
    }
    assert_eq!(converted(0, last), Ok(start));
}

#[test]
fn the_ends_of_a_count() {
    let [first, last] = DAYS;
    for (count, day) in [(i64::MIN, first), (i64::MIN + 1, first), (i64::MAX - 1, last), (i64::MAX, last)] {
        let value = value_of(count);
        assert_eq!(value[8..], day.to_le_bytes());
        assert_eq!(count_of(&value), Ok(count));
    }
    // The start of the first day does not fit, though later times in it do.
    let least = u64::from_le_bytes(*value_of(i64::MIN).first_chunk().unwrap());
    for of_day in [0, 1, least - 1] {
        assert_eq!(converted(of_day, first), refused(19));
    }
    assert_eq!(converted(DAY - 1, first).unwrap() + 1, converted(0, first + 1).unwrap());
    let greatest = u64::from_le_bytes(*value_of(i64::MAX).first_chunk().unwrap());
    for of_day in [greatest + 1, DAY - 1] {
        assert_eq!(converted(of_day, last), refused(19));
    }
    for day in [0, 1, first - 1, last + 1, i32::MAX as u32, 1 << 31, u32::MAX] {
        for of_day in [0, DAY - 1] {
            assert_eq!(converted(of_day, day), refused(19));
        }
    }
}

#[test]
fn the_length_comes_first_then_the_nanoseconds_then_the_count_then_the_output() {
    let far = of_parts(0, 0);
    let full = of_parts(DAY, 0);
    for length in (0..SIZE).chain(SIZE + 1..=24) {
        for filled in [0, 0xFF] {
            assert_eq!(from_int96(&vec![filled; length], &mut [7]), refused(15));
            assert_eq!(from_int96(&vec![filled; length], &mut []), refused(15));
        }
    }
    for of_day in [DAY, DAY + 1, 1 << 63, u64::MAX] {
        for day in [0, EPOCH, u32::MAX] {
            assert_eq!(converted(of_day, day), refused(16));
        }
    }
    for (value, number) in [(full, 16), (far, 19), (value_of(5), 14)] {
        assert_eq!(from_int96(&value, &mut []), refused(number));
    }
    for (value, number) in [(&full[..], 16), (&far, 19), (&far[..11], 15)] {
        let mut out = [7; 2];
        assert_eq!(from_int96(value, &mut out), refused(number));
        assert_eq!(out, [7; 2]);
    }
}

#[test]
fn lent_buffers() {
    for lent in 0..SIZE {
        let mut out = vec![7; lent];
        assert_eq!(to_int96(i64::MIN, &mut out), refused(14));
        assert_eq!(out, vec![7; lent]);
    }
    for beyond in [0, 1, 12] {
        let mut out = vec![7; SIZE + beyond];
        assert_eq!(to_int96(i64::MIN, &mut out), Ok(12));
        assert_eq!((&out[..SIZE], &out[SIZE..]), (&value_of(i64::MIN)[..], &vec![7; beyond][..]));
        let mut out = vec![7; 1 + beyond];
        assert_eq!(from_int96(&value_of(-5), &mut out), Ok(1));
        assert_eq!((out[0], &out[1..]), (-5, &vec![7; beyond][..]));
    }
}
