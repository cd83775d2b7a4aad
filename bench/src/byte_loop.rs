//! UTF-8 checked a byte at a time, in the three ways in which such loops are written.

/// A loop over the first bytes of sequences, each of which says what must follow.
pub fn is_utf8_by_sequence(text: &[u8]) -> bool {
    let mut bytes = text.iter().copied();
    let within = |byte: Option<u8>, low: u8, high: u8| byte.is_some_and(|byte| (low..=high).contains(&byte));
    while let Some(first) = bytes.next() {
        let (low, high, tails) = match first {
            0x00..=0x7F => continue,
            0xC2..=0xDF => (0x80, 0xBF, 0),
            0xE0 => (0xA0, 0xBF, 1),
            0xED => (0x80, 0x9F, 1),
            0xE1..=0xEF => (0x80, 0xBF, 1),
            0xF0 => (0x90, 0xBF, 2),
            0xF1..=0xF3 => (0x80, 0xBF, 2),
            0xF4 => (0x80, 0x8F, 2),
            _ => return false,
        };
        if !within(bytes.next(), low, high) || !(0..tails).all(|_| within(bytes.next(), 0x80, 0xBF)) {
            return false;
        }
    }
    true
}

/// What may come next.
#[derive(Clone, Copy, PartialEq)]
enum State {
    /// A first byte.
    Start,
    /// So many bytes from 80 to BF.
    One,
    Two,
    Three,
    /// The second byte after E0, ED, F0 or F4, of a narrower range.
    AfterE0,
    AfterEd,
    AfterF0,
    AfterF4,
}

/// A state machine as a match of the state and the byte.
pub fn is_utf8_by_match(text: &[u8]) -> bool {
    use State::*;
    let mut state = Start;
    for &byte in text {
        state = match (state, byte) {
            (Start, 0x00..=0x7F) => Start,
            (Start, 0xC2..=0xDF) => One,
            (Start, 0xE0) => AfterE0,
            (Start, 0xE1..=0xEC | 0xEE..=0xEF) => Two,
            (Start, 0xED) => AfterEd,
            (Start, 0xF0) => AfterF0,
            (Start, 0xF1..=0xF3) => Three,
            (Start, 0xF4) => AfterF4,
            (One, 0x80..=0xBF) => Start,
            (Two, 0x80..=0xBF) | (AfterE0, 0xA0..=0xBF) | (AfterEd, 0x80..=0x9F) => One,
            (Three, 0x80..=0xBF) | (AfterF0, 0x90..=0xBF) | (AfterF4, 0x80..=0x8F) => Two,
            _ => return false,
        };
    }
    state == Start
}

/// The same machine as a table of the next state by the state and the byte's class. It looks at every byte and has no branch.
pub fn is_utf8_by_table(text: &[u8]) -> bool {
    let mut state = START;
    for &byte in text {
        state = NEXT[usize::from(state) * CLASSES + usize::from(CLASS[usize::from(byte)])];
    }
    state == START
}

const START: u8 = 0;
const ONE: u8 = 1;
const TWO: u8 = 2;
const THREE: u8 = 3;
const AFTER_E0: u8 = 4;
const AFTER_ED: u8 = 5;
const AFTER_F0: u8 = 6;
const AFTER_F4: u8 = 7;
const BAD: u8 = 8;
const STATES: usize = 9;

/// Bytes that every state treats alike.
const CLASSES: usize = 16;

const CLASS: [u8; 256] = {
    let mut class = [0; 256];
    let mut byte = 0;
    while byte < 256 {
        class[byte] = match byte {
            0x00..=0x7F => 0,
            0x80..=0x8F => 1,
            0x90..=0x9F => 2,
            0xA0..=0xBF => 3,
            0xC2..=0xDF => 4,
            0xE0 => 5,
            0xE1..=0xEC | 0xEE..=0xEF => 6,
            0xED => 7,
            0xF0 => 8,
            0xF1..=0xF3 => 9,
            0xF4 => 10,
            _ => 11,
        };
        byte += 1;
    }
    class
};

const NEXT: [u8; STATES * CLASSES] = {
    let mut next = [BAD; STATES * CLASSES];
    let starts = [START, BAD, BAD, BAD, ONE, AFTER_E0, TWO, AFTER_ED, AFTER_F0, THREE, AFTER_F4];
    let mut class = 0;
    while class < starts.len() {
        next[class] = starts[class];
        class += 1;
    }
    // The classes of a tail byte that a state takes, and where they lead.
    let tails = [
        (ONE, 1, 3, START),
        (TWO, 1, 3, ONE),
        (THREE, 1, 3, TWO),
        (AFTER_E0, 3, 3, ONE),
        (AFTER_ED, 1, 2, ONE),
        (AFTER_F0, 2, 3, TWO),
        (AFTER_F4, 1, 1, TWO),
    ];
    let mut at = 0;
    while at < tails.len() {
        let (state, first, last, to) = tails[at];
        let mut class = first;
        while class <= last {
            next[state as usize * CLASSES + class] = to;
            class += 1;
        }
        at += 1;
    }
    next
};
