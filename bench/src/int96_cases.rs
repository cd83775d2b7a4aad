//! INT96 times turned into counts and back, beside plain arithmetic.

use std::hint::black_box;

use independent::int96::{count_of, of_parts, value_of, EPOCH};

use crate::case::{contender, Case, Contender, Goal, INDEPENDENT, LIBRARY};
use crate::linked::{self, answer, answer_of};
use crate::random::Random;
use crate::{julian, timestamp_cases};

/// How many times a run goes through.
const TIMES: usize = 512;

const CHECKED: &str = "128 bits, checked";
const UNCHECKED: &str = "64 bits, not checked";
const PLAIN: &str = "64 bits";

const NANOS_OF_SECOND: i64 = 1_000_000_000;
const DAY: u64 = 86_400_000_000_000;

pub fn cases() -> Vec<Case<'static>> {
    wrong_ones();
    let stretches = timestamp_cases::STRETCHES.map(|(words, from, to)| {
        let mut random = Random::new(19);
        let nanos = |second: i64, of_second: i64| second * NANOS_OF_SECOND + of_second;
        let counts = (0..TIMES).map(|_| nanos(random.between(from, to), random.between(0, NANOS_OF_SECOND)));
        (words, counts.collect::<Vec<i64>>())
    });
    stretches
        .iter()
        .flat_map(|(words, counts)| [turned_into_counts(words, counts), turned_back(words, counts)])
        .collect()
}

fn case(
    entry: &'static str,
    words: &str,
    goal: &'static [&'static str],
    contenders: Vec<Contender<'static>>,
) -> Case<'static> {
    Case { entry, input: words.into(), item: "call", items: TIMES, goal: Goal::TimeOf(goal), contenders }
}

fn turned_into_counts(words: &str, counts: &[i64]) -> Case<'static> {
    let values: Vec<[u8; 12]> = counts.iter().map(|&count| value_of(count)).collect();
    for (value, &count) in values.iter().zip(counts) {
        turned(value, Some(count));
        assert_eq!(julian::count_unchecked(value), count);
    }
    let contenders = vec![
        contender(LIBRARY, &values, |value| {
            let mut count = [0];
            linked::from_int96(value, &mut count);
            count
        }),
        contender(INDEPENDENT, &values, |value| count_of(value)),
        contender(CHECKED, &values, |value| julian::count_checked(value)),
        contender(UNCHECKED, &values, julian::count_unchecked),
    ];
    case("from_int96", words, &[CHECKED], contenders)
}

fn turned_back(words: &str, counts: &[i64]) -> Case<'static> {
    for &count in counts {
        let mut values = [[0; 12]; 2];
        assert_eq!(linked::to_int96(count, &mut values[0]), answer(0, 12));
        julian::write_value(count, &mut values[1]);
        assert_eq!(values, [value_of(count); 2]);
    }
    let contenders = vec![
        contender(LIBRARY, counts, |&count| written(|value| linked::to_int96(count, value))),
        contender(INDEPENDENT, counts, |&count| written(|value| independent::to_int96(count, value))),
        contender(PLAIN, counts, |&count| written(|value| julian::write_value(count, value))),
    ];
    case("to_int96", words, &[PLAIN], contenders)
}

/// Lends room for a value, and does not read it again: a load of words waits for stores of single bytes, which tells nothing of who wrote.
fn written<R>(write: impl FnOnce(&mut [u8; 12]) -> R) -> R {
    let mut value = [0; 12];
    let answer = write(&mut value);
    black_box(&value);
    answer
}

/// Those who look at a value turn it alike, or all refuse it.
fn turned(value: &[u8], expected: Option<i64>) {
    let (mut count, mut of_independent) = ([0], [0]);
    let said = linked::from_int96(value, &mut count);
    assert_eq!(said, answer_of(independent::from_int96(value, &mut of_independent)));
    assert_eq!((said == answer(0, 1)).then_some(count[0]), expected);
    assert_eq!((of_independent, julian::count_checked(value)), (count, expected));
}

/// Values of another length, with a full day of nanoseconds, and about both ends of a count.
fn wrong_ones() {
    for length in [0, 11, 13] {
        turned(&vec![0; length], None);
    }
    turned(&of_parts(DAY, EPOCH), None);
    turned(&of_parts(0, 0), None);
    for (nanos, day, count) in [(763_145_224_192, 2_333_836, i64::MIN), (85_636_854_775_807, 2_547_339, i64::MAX)] {
        turned(&of_parts(nanos, day), Some(count));
        turned(&of_parts(if count < 0 { nanos - 1 } else { nanos + 1 }, day), None);
    }
}
