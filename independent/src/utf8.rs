//! UTF-8 by RFC 3629.

/// Where whole valid sequences, read from the start, stop.
pub fn valid_up_to(text: &[u8]) -> usize {
    let mut at = 0;
    while let Some(length) = sequence_length(&text[at..]) {
        at += length;
    }
    at
}

/// The length of the sequence that a text begins with, by the grammar of RFC 3629, section 4.
fn sequence_length(text: &[u8]) -> Option<usize> {
    match text {
        // UTF8-1
        [0x00..=0x7F, ..] => Some(1),
        // UTF8-2
        [0xC2..=0xDF, 0x80..=0xBF, ..] => Some(2),
        // UTF8-3
        [0xE0, 0xA0..=0xBF, 0x80..=0xBF, ..] => Some(3),
        [0xE1..=0xEC, 0x80..=0xBF, 0x80..=0xBF, ..] => Some(3),
        [0xED, 0x80..=0x9F, 0x80..=0xBF, ..] => Some(3),
        [0xEE..=0xEF, 0x80..=0xBF, 0x80..=0xBF, ..] => Some(3),
        // UTF8-4
        [0xF0, 0x90..=0xBF, 0x80..=0xBF, 0x80..=0xBF, ..] => Some(4),
        [0xF1..=0xF3, 0x80..=0xBF, 0x80..=0xBF, 0x80..=0xBF, ..] => Some(4),
        [0xF4, 0x80..=0x8F, 0x80..=0xBF, 0x80..=0xBF, ..] => Some(4),
        _ => None,
    }
}
