//! INT96 times turned into counts, and counts turned into INT96: both ends of a count, days and nanoseconds at their bounds, every length and
//! every output that is too short, and which refusal comes first.
//!
//! A line is `from BYTES LENT` or `to COUNT LENT`; behind a colon what is written into so many lent numbers or bytes, or a refusal, and
//! whether the rest of them was kept; and behind another what a result is turned back into.

use std::fmt::Write;

use independent::int96::{count_of, of_parts, value_of, EPOCH, SIZE};
use independent::{decode, from_int96, to_int96, Fields, Refusal};

const DAY: u64 = 86_400_000_000_000;
/// The least and the greatest count: its nanoseconds in its Julian day.
const ENDS: [(u64, u32); 2] = [(763_145_224_192, 2_333_836), (85_636_854_775_807, 2_547_339)];

pub fn answers(_: &[u8]) -> Vec<u8> {
    let mut lines = String::new();
    for part in [days, ends, nanoseconds, single_bytes, lengths, counts, outputs, published] {
        part(&mut lines);
    }
    lines.into()
}

/// Days about 1970, about both ends of a count and about the bounds of 16, 31 and 32 bits, with nanoseconds at the bounds of a day.
fn days(lines: &mut String) {
    let far = [0, 1, 0xFFFF, 0x1_0000, i32::MAX as u32, 1 << 31, u32::MAX - 1, u32::MAX];
    let about = ENDS.map(|(_, day)| day).into_iter().chain([EPOCH]).flat_map(|day| day - 2..=day + 2);
    for day in far.into_iter().chain(about) {
        for of_day in [0, 1, DAY / 2, DAY - 1, DAY] {
            from(lines, &of_parts(of_day, day), 1);
        }
    }
}

/// The nanoseconds about the least and the greatest count.
fn ends(lines: &mut String) {
    for (of_day, day) in ENDS {
        for near in of_day - 2..=of_day + 2 {
            from(lines, &of_parts(near, day), 1);
        }
    }
}

/// More nanoseconds than a day has, on days that have a count and on days that have none.
fn nanoseconds(lines: &mut String) {
    for of_day in [DAY - 1, DAY, DAY + 1, 2 * DAY, 1 << 48, 1 << 63, u64::MAX - 1, u64::MAX] {
        for day in [0, ENDS[0].1, EPOCH, ENDS[1].1, u32::MAX] {
            from(lines, &of_parts(of_day, day), 1);
        }
    }
}

/// Each byte of a value at the ends of what it holds, all others zero, all others as on 1 January 1970, and all others 255.
fn single_bytes(lines: &mut String) {
    for others in [[0; SIZE], value_of(0), [0xFF; SIZE]] {
        for at in 0..SIZE {
            for byte in [0, 1, 0x7F, 0x80, 0xFE, 0xFF] {
                let mut value = others;
                value[at] = byte;
                from(lines, &value, 1);
            }
        }
    }
}

/// Values of each length, whose beginnings alone would have another refusal or none, with enough lent and with nothing.
fn lengths(lines: &mut String) {
    for others in [[0; 2 * SIZE], [0xFF; 2 * SIZE], [value_of(-1); 2].concat().try_into().expect("two values")] {
        for length in 0..=others.len() {
            for lent in [1, 0] {
                from(lines, &others[..length], lent);
            }
        }
    }
}

/// Counts at the ends of a day, of each number of bytes and of all counts.
fn counts(lines: &mut String) {
    let day = DAY as i64;
    let of_days = [-2 * day, -day, 0, day, 2 * day].into_iter();
    let of_bytes = (1..8).flat_map(|bytes| [1 << (8 * bytes), -(1 << (8 * bytes))]);
    for count in of_days.chain(of_bytes).flat_map(|count| count - 1..=count + 1) {
        to(lines, count, SIZE);
    }
    for count in [i64::MIN, i64::MIN + 1, i64::MAX - 1, i64::MAX] {
        to(lines, count, SIZE);
    }
}

/// Outputs too short, just enough and longer, for values of each refusal and of none, and for counts.
fn outputs(lines: &mut String) {
    let (full, far) = (of_parts(DAY, 0), of_parts(0, 0));
    for value in [&value_of(i64::MIN)[..], &value_of(7), &full, &far, &far[..SIZE - 1], &[&full[..], &[0]].concat()] {
        for lent in [0, 1, 2, SIZE] {
            from(lines, value, lent);
        }
    }
    for count in [i64::MIN, -1, 0, i64::MAX] {
        for lent in (0..=SIZE + 1).chain([2 * SIZE, 100]) {
            to(lines, count, lent);
        }
    }
}

/// What was published with its Julian day, which the answers here must be.
fn published(lines: &mut String) {
    // Jean Meeus, "Astronomical Algorithms", chapter 7: the Julian Days of noon on dates after 1677; the last is that of the day on which the
    // Modified Julian Day begins.
    for (julian_day, year, month, day) in [
        (2_451_545, 2000, 1, 1),
        (2_446_966, 1987, 6, 19),
        (2_447_332, 1988, 6, 19),
        (2_415_021, 1900, 1, 1),
        (2_400_001, 1858, 11, 17),
    ] {
        let value = of_parts(DAY / 2, julian_day);
        let noon = Fields { year, month, day, hour: 12, minute: 0, second: 0, fraction: 0 };
        assert_eq!(count_of(&value).and_then(|count| decode(3, count)), Ok(noon), "{julian_day}");
        from(lines, &value, 1);
    }
}

/// What lent numbers and lent bytes hold before.
const NUMBER: i64 = 0x5A5A_5A5A_5A5A_5A5A;
const BYTE: u8 = 0x5A;

/// A line of a value turned into a count, and of the count turned back.
fn from(lines: &mut String, value: &[u8], lent: usize) {
    let mut out = vec![NUMBER; lent];
    let answer = answer(from_int96(value, &mut out), &out, NUMBER, |written| {
        format!("{}: {}", written[0], hex(&value_of(written[0])))
    });
    writeln!(lines, "from {} {lent}: {answer}", hex(value)).unwrap();
}

/// A line of a count turned into a value, and of the value turned back.
fn to(lines: &mut String, count: i64, lent: usize) {
    let mut out = vec![BYTE; lent];
    let answer = answer(to_int96(count, &mut out), &out, BYTE, |written| {
        format!("{}: {}", hex(written), count_of(written).expect("a value of a count"))
    });
    writeln!(lines, "to {count} {lent}: {answer}").unwrap();
}

/// What was written, or a refusal; and whether the rest of what was lent is as it was.
fn answer<T: PartialEq>(answer: Result<u32, Refusal>, out: &[T], mark: T, text: impl FnOnce(&[T]) -> String) -> String {
    let (written, rest) = out.split_at(answer.map_or(0, |count| count as usize));
    let kept = if rest.iter().all(|element| *element == mark) { "kept" } else { "not kept" };
    match answer {
        Ok(_) => format!("{kept} {}", text(written)),
        Err(refusal) => format!("{kept} refused {}", refusal.number),
    }
}

/// Two digits for each byte; no bytes are a dash.
fn hex(bytes: &[u8]) -> String {
    match bytes {
        [] => "-".to_string(),
        _ => bytes.iter().map(|byte| format!("{byte:02x}")).collect(),
    }
}
