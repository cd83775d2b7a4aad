//! Texts of 65,536 bytes read as STRING: UTF-8.

use std::hint::black_box;

use independent::codes::{logical, physical};

use crate::byte_loop::{is_utf8_by_match, is_utf8_by_sequence, is_utf8_by_table};
use crate::case::{Case, Contender, Goal, INDEPENDENT, LIBRARY};
use crate::linked::{self, answer, answer_of, ColumnType, EDITION};
use crate::pair_loop;
use crate::random::Random;

/// Bytes of a text, the most that a value has.
const LENGTH: usize = 65_536;

const STRING: ColumnType = [physical::BYTE_ARRAY as u32, 0, logical::STRING as u32, 0, 0];

const BREAKS_ANNOTATION: u32 = 16;
const BYTES: u32 = 5;

/// The names of the loops whose time is to be reached.
const BY_SEQUENCE: &str = "byte loop, by sequence";
const BY_MATCH: &str = "byte loop, state by match";
const BY_TABLE: &str = "byte loop, state by table";
const FROM_UTF8: &str = "str::from_utf8";
/// The name of the library's own way before it took ASCII eight bytes at a time. Its time is to be reached too, and in ASCII an eighth
/// of it.
const BY_PAIRS: &str = "two bytes in a turn, as before";
const IN_ASCII: Goal = Goal::EighthOf(BY_PAIRS, &[BY_SEQUENCE, BY_MATCH, BY_TABLE]);
const IN_LETTERS: Goal = Goal::TimeOf(&[BY_SEQUENCE, BY_MATCH, BY_TABLE, BY_PAIRS]);

pub fn cases() -> Vec<Case<'static>> {
    let mut random = Random::new(5);
    let texts = [
        ("ASCII", IN_ASCII, text(|_| random.between(0x20, 0x7F) as u32)),
        ("letters of two bytes", IN_LETTERS, text(|_| random.between(0x400, 0x460) as u32)),
        ("letters of three bytes", IN_LETTERS, text(|_| random.between(0x4E00, 0x9FA6) as u32)),
        (
            "ASCII, one letter of two bytes in each 16",
            IN_LETTERS,
            text(|at| if at % 16 == 0 { 0xE9 } else { random.between(0x61, 0x7B) as u32 }),
        ),
        ("letters of one to four bytes, mixed", IN_LETTERS, text(|_| mixed(&mut random))),
    ];
    texts.into_iter().map(|(words, goal, text)| case(words, goal, text)).collect()
}

/// A text of such letters, by where each starts, that ends with ASCII where no other letter fits.
fn text(mut letter: impl FnMut(usize) -> u32) -> Vec<u8> {
    let mut text = String::with_capacity(LENGTH);
    while text.len() < LENGTH {
        let letter = char::from_u32(letter(text.len())).expect("a letter");
        text.push(if text.len() + letter.len_utf8() <= LENGTH { letter } else { '.' });
    }
    text.into_bytes()
}

fn mixed(random: &mut Random) -> u32 {
    let ranges = [(0x20, 0x7F), (0xA0, 0x800), (0x800, 0xD800), (0x1_0000, 0x11_0000)];
    let (from, to) = ranges[random.between(0, 4) as usize];
    random.between(from, to) as u32
}

fn case(words: &str, goal: Goal, text: Vec<u8>) -> Case<'static> {
    agree(&text, true);
    for at in [0, 1000, LENGTH / 2 + 1, LENGTH - 1] {
        let mut changed = text.clone();
        changed[at] = 0xFF;
        agree(&changed, false);
    }
    let mut cut = text.clone();
    cut[LENGTH - 2..].copy_from_slice(&[0xE2, 0x82]);
    agree(&cut, false);
    let contenders = vec![
        contender(LIBRARY, &text, |text| linked::read(EDITION, STRING, text, &mut [0; 2])),
        contender(INDEPENDENT, &text, |text| independent::read(black_box(EDITION), black_box(column(STRING)), text)),
        contender(FROM_UTF8, &text, |text| std::str::from_utf8(text).is_ok()),
        contender(BY_SEQUENCE, &text, is_utf8_by_sequence),
        contender(BY_MATCH, &text, is_utf8_by_match),
        contender(BY_TABLE, &text, is_utf8_by_table),
        contender(BY_PAIRS, &text, pair_loop::valid_up_to),
    ];
    let input = format!("STRING of 65,536 bytes: {words}");
    Case { entry: "read", input, item: "byte", items: LENGTH, goal, contenders }
}

fn contender<R>(name: &'static str, text: &[u8], work: impl Fn(&[u8]) -> R + 'static) -> Contender<'static> {
    let text = text.to_vec();
    Contender::new(name, move || {
        black_box(work(black_box(&text)));
    })
}

fn column([physical, type_length, kind, p1, p2]: ColumnType) -> independent::ColumnType {
    independent::ColumnType { physical, type_length, kind, p1, p2 }
}

/// Every contender says the same of a text, and those that tell a place the same place.
fn agree(text: &[u8], valid: bool) {
    let stop = std::str::from_utf8(text).map_err(|fault| fault.valid_up_to() as u32);
    assert_eq!(stop.is_ok(), valid);
    let expected = stop.map_or_else(|stop| answer(BREAKS_ANNOTATION, stop), |_| answer(0, BYTES));
    assert_eq!(linked::read(EDITION, STRING, text, &mut [0; 2]), expected);
    assert_eq!(answer_of(independent::read(EDITION, column(STRING), text).map(|_| BYTES)), expected);
    assert_eq!(is_utf8_by_sequence(text), valid);
    assert_eq!(is_utf8_by_match(text), valid);
    assert_eq!(is_utf8_by_table(text), valid);
    assert_eq!(pair_loop::valid_up_to(text), stop.map_or_else(|stop| stop as usize, |text| text.len()));
}
