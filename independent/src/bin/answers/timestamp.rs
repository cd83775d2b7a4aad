//! Counts decoded and fields encoded, at the ends of every range and over the years around every rule of the calendar.

use std::fmt::Write;

use independent::{decode, encode, Fields};

const MOST: i64 = u32::MAX as i64;
const UNITS: [(u32, i64); 3] = [(1, 1_000), (2, 1_000_000), (3, 1_000_000_000)];

pub fn answers(_: &[u8]) -> Vec<u8> {
    let mut lines = String::new();
    for unit in [1, 2, 3, 0, 4, u32::MAX] {
        counts(&mut lines, unit);
    }
    ends(&mut lines);
    for (unit, ticks) in UNITS {
        ranges(&mut lines, unit, ticks);
    }
    ranges(&mut lines, 0, 1_000);
    years(&mut lines, (-401..=-1).rev());
    years(&mut lines, 0..=401);
    for century in [1600, 1700, 1800, 1900, 2000, 2100, 2400] {
        years(&mut lines, century - 1..=century + 1);
    }
    published(&mut lines);
    lines.into()
}

/// What was published with its date and time, which the answers here must be.
fn published(lines: &mut String) {
    // Document 003, TIMESTAMP: two counts of MILLIS, and the seconds that the ends of NANOS lie in.
    for (unit, count, date) in [
        (1, 172_800_000, "1970 1 3 0 0 0 "),
        (1, 169_200_000, "1970 1 2 23 0 0 "),
        (3, i64::MIN, "1677 9 21 0 12 43 "),
        (3, i64::MAX, "2262 4 11 23 47 16 "),
    ] {
        let fields = decoded(unit, count);
        assert!(fields.starts_with(date), "document 003 has {date} for {count}, not {fields}");
        writeln!(lines, "decode {unit} {count}: {fields}").unwrap();
    }
    // Howard Hinnant, "chrono-Compatible Low-Level Date Algorithms": day 0 and the day before it, and era n beginning on 1 March
    // of year 400 n, 146,097 n - 719,468 days from 1970.
    let midnight = |year, month, day| Fields { year, month, day, hour: 0, minute: 0, second: 0, fraction: 0 };
    agreed(lines, 1, midnight(1970, 1, 1), 0);
    agreed(lines, 1, midnight(1969, 12, 31), -86_400);
    for era in [-2, -1, 0, 1, 4, 5] {
        agreed(lines, 1, midnight(400 * era, 3, 1), (146_097 * era - 719_468) * 86_400);
    }
    // RFC 868, "Time Protocol": seconds since 1900, 2,208,988,800 of them before 1970.
    for (second, fields) in [
        (0, midnight(1900, 1, 1)),
        (2_208_988_800, midnight(1970, 1, 1)),
        (2_398_291_200, midnight(1976, 1, 1)),
        (2_524_521_600, midnight(1980, 1, 1)),
        (2_629_584_000, midnight(1983, 5, 1)),
        (-1_297_728_000, midnight(1858, 11, 17)),
    ] {
        agreed(lines, 2, fields, second - 2_208_988_800);
    }
    // The GNU Coreutils manual, "Seconds since the Epoch", and the ends of 32 bits.
    for (second, (year, month, day), (hour, minute, after)) in [
        (0, (1970, 1, 1), (0, 0, 0)),
        (1, (1970, 1, 1), (0, 0, 1)),
        (-1, (1969, 12, 31), (23, 59, 59)),
        (i64::from(i32::MIN), (1901, 12, 13), (20, 45, 52)),
        (i64::from(i32::MAX), (2038, 1, 19), (3, 14, 7)),
        (1_483_228_799, (2016, 12, 31), (23, 59, 59)),
        (1_483_228_800, (2017, 1, 1), (0, 0, 0)),
    ] {
        agreed(lines, 3, Fields { hour, minute, second: after, ..midnight(year, month, day) }, second);
    }
}

/// A line of fields whose second since 1970 was published.
fn agreed(lines: &mut String, unit: u32, fields: Fields, second: i64) {
    let ticks = UNITS[unit as usize - 1].1;
    assert_eq!(encode(unit, &fields).ok(), Some(second * ticks), "{}", text(&fields));
    encoded(lines, unit, fields);
}

fn counts(lines: &mut String, unit: u32) {
    const DAY: i64 = 86_400_000;
    let (least, most) = (i64::MIN, i64::MAX);
    for count in [least, least + 1, -DAY - 1, -DAY, -DAY + 1, -1, 0, 1, DAY - 1, DAY, 2 * DAY, most - 1, most] {
        writeln!(lines, "decode {unit} {count}: {}", decoded(unit, count)).unwrap();
    }
}

/// The fields of the least and the greatest count of each unit, and the tick beyond.
fn ends(lines: &mut String) {
    for (unit, _) in UNITS {
        for (count, step) in [(i64::MIN, -1), (i64::MAX, 1)] {
            let fields = decode(unit, count).expect("every count decodes");
            encoded(lines, unit, fields);
            encoded(lines, unit, Fields { fraction: fields.fraction + step, ..fields });
        }
    }
}

fn ranges(lines: &mut String, unit: u32, ticks: i64) {
    let first = Fields { year: 1970, month: 1, day: 1, hour: 0, minute: 0, second: 0, fraction: 0 };
    for month in [0, 1, 12, 13, MOST] {
        encoded(lines, unit, Fields { month, ..first });
    }
    for month in 1..=12 {
        for day in [0, 1, 28, 29, 30, 31, 32, MOST] {
            encoded(lines, unit, Fields { month, day, ..first });
        }
    }
    for hour in [23, 24, MOST] {
        encoded(lines, unit, Fields { hour, ..first });
    }
    for minute in [59, 60, MOST] {
        encoded(lines, unit, Fields { minute, ..first });
    }
    for second in [59, 60, MOST] {
        encoded(lines, unit, Fields { second, ..first });
    }
    for fraction in [ticks - 1, ticks, MOST] {
        encoded(lines, unit, Fields { fraction, ..first });
    }
    for (year, month, day, hour, minute, second) in [
        (i64::MIN, 1, 1, 0, 0, 0),
        (i64::MIN, 2, 29, 23, 59, 59),
        (i64::MIN, 13, 1, 0, 0, 0),
        (-300_000_001, 12, 31, 0, 0, 0),
        (-300_000_000, 2, 29, 0, 0, 0),
        (-299_999_999, 1, 1, 0, 0, 0),
        (299_999_999, 12, 31, 0, 0, 0),
        (300_000_000, 2, 29, 0, 0, 0),
        (i64::MAX, 12, 31, 0, 0, 0),
        (i64::MAX, 2, 29, 0, 0, 0),
        (i64::MAX, 12, 31, 24, 0, 0),
    ] {
        encoded(lines, unit, Fields { year, month, day, hour, minute, second, fraction: 0 });
    }
}

fn years(lines: &mut String, years: impl Iterator<Item = i64>) {
    for year in years {
        let morning = |month, day| Fields { year, month, day, hour: 0, minute: 0, second: 0, fraction: 0 };
        let night = |month, day| Fields { year, month, day, hour: 23, minute: 59, second: 59, fraction: 999 };
        for fields in [morning(1, 1), night(1, 2), night(2, 28), morning(2, 29), morning(3, 1), night(12, 31)] {
            encoded(lines, 1, fields);
        }
    }
}

fn decoded(unit: u32, count: i64) -> String {
    decode(unit, count).map_or_else(|refusal| format!("refused {}", refusal.number), |fields| text(&fields))
}

/// A line of fields encoded, and of the count decoded again.
fn encoded(lines: &mut String, unit: u32, fields: Fields) {
    let answer = match encode(unit, &fields) {
        Ok(count) => format!("{count}: {}", decoded(unit, count)),
        Err(refusal) => format!("refused {}", refusal.number),
    };
    writeln!(lines, "encode {unit} {}: {answer}", text(&fields)).unwrap();
}

fn text(fields: &Fields) -> String {
    let Fields { year, month, day, hour, minute, second, fraction } = fields;
    format!("{year} {month} {day} {hour} {minute} {second} {fraction}")
}
