//! UTF-8 as the library checked it before it took ASCII eight bytes at a time: two in a turn. Step by step what was proved then, so
//! nothing asks at run time whether an index lies inside the text here either.

const UTF8_1_LAST: u8 = 0x7F;
const UTF8_2_FIRST: u8 = 0xC2;
const UTF8_2_LAST: u8 = 0xDF;
const TAIL_LOW: u8 = 0x80;
const TAIL_HIGH: u8 = 0xBF;

/// Where whole sequences, read from the start, stop.
pub fn valid_up_to(text: &[u8]) -> usize {
    let mut at = 0;
    while at < text.len() {
        if byte(text, at) > UTF8_1_LAST {
            let length = sequence_at(text, at);
            if length == 0 {
                return at;
            }
            at += length;
        } else {
            at = ascii_after(text, at + 1);
        }
    }
    at
}

/// Where bytes below 128, looked at two in a turn, end.
fn ascii_after(text: &[u8], from: usize) -> usize {
    let mut at = from;
    while text.len() - at >= 2 {
        if (byte(text, at) > UTF8_1_LAST) | (byte(text, at + 1) > UTF8_1_LAST) {
            return at;
        }
        at += 2;
    }
    at
}

/// How many bytes the sequence that starts at `at` has; 0 where none starts there.
fn sequence_at(text: &[u8], at: usize) -> usize {
    let first = byte(text, at);
    if first <= UTF8_1_LAST {
        return 1;
    }
    if first <= UTF8_2_LAST {
        return pair_at(text, at);
    }
    let rest = rest_after(first);
    if text.len() - at < rest.tails + 2 {
        return 0;
    }
    if !within(byte(text, at + 1), rest.low, rest.high) {
        return 0;
    }
    if !tails_at(text, at + 2, rest.tails) {
        return 0;
    }
    rest.tails + 2
}

fn pair_at(text: &[u8], at: usize) -> usize {
    if byte(text, at) < UTF8_2_FIRST {
        return 0;
    }
    if text.len() - at < 2 {
        return 0;
    }
    if !within(byte(text, at + 1), TAIL_LOW, TAIL_HIGH) {
        return 0;
    }
    2
}

fn tails_at(text: &[u8], at: usize, count: usize) -> bool {
    let mut i = 0;
    while i < count {
        if !within(byte(text, at + i), TAIL_LOW, TAIL_HIGH) {
            return false;
        }
        i += 1;
    }
    true
}

/// What follows the first byte of a sequence of three or four: the second byte's range, and how many tails come after it.
struct Rest {
    low: u8,
    high: u8,
    tails: usize,
}

/// No byte is of the range where no sequence starts so.
fn rest_after(first: u8) -> Rest {
    let rest = |low, high, tails| Rest { low, high, tails };
    if first == 0xE0 {
        return rest(0xA0, TAIL_HIGH, 1);
    }
    if first < 0xED {
        return rest(TAIL_LOW, TAIL_HIGH, 1);
    }
    if first == 0xED {
        return rest(TAIL_LOW, 0x9F, 1);
    }
    if first <= 0xEF {
        return rest(TAIL_LOW, TAIL_HIGH, 1);
    }
    if first == 0xF0 {
        return rest(0x90, TAIL_HIGH, 2);
    }
    if first < 0xF4 {
        return rest(TAIL_LOW, TAIL_HIGH, 2);
    }
    if first == 0xF4 {
        return rest(TAIL_LOW, 0x8F, 2);
    }
    rest(1, 0, 0)
}

fn within(byte: u8, low: u8, high: u8) -> bool {
    low <= byte && byte <= high
}

fn byte(text: &[u8], at: usize) -> u8 {
    debug_assert!(at < text.len());
    // SAFETY: every caller has held `at` against the length.
    unsafe { *text.get_unchecked(at) }
}
