//! The editions that questions are asked in, and where in a file of questions they stand.

use independent::edition::{FIRST, SECOND, THIRD};

use crate::bytes::{put, Reader};

/// The known editions.
pub const KNOWN: [u32; 3] = [FIRST, SECOND, THIRD];
/// The known editions, and numbers of none.
pub const KNOWN_AND_OTHERS: [u32; 7] = [FIRST, SECOND, THIRD, 0, 4, 5, u32::MAX];

/// Questions again in each of some editions, those of one question behind one another.
pub fn in_each<T>(editions: &[u32], questions: &[T], in_edition: impl Fn(&T, u32) -> T) -> Vec<T> {
    let all = questions.iter().flat_map(|question| editions.iter().map(move |&edition| (question, edition)));
    all.map(|(question, edition)| in_edition(question, edition)).collect()
}

/// Whether the known editions answer alike.
pub fn all_alike<T: PartialEq>(answer: impl Fn(u32) -> T) -> bool {
    let first = answer(FIRST);
    KNOWN[1..].iter().all(|&later| answer(later) == first)
}

/// The title of a question in an edition.
pub fn title_in(edition: u32, title: &str) -> String {
    format!("edition {edition}, {title}")
}

/// Where the edition of a question stands.
#[derive(Clone, Copy)]
pub enum Editions {
    /// Nowhere: it is the first.
    First,
    /// Before each question.
    BeforeEach,
}

impl Editions {
    pub fn put(self, bytes: &mut Vec<u8>, edition: u32) {
        match self {
            Editions::First => assert_eq!(edition, FIRST),
            Editions::BeforeEach => put(bytes, edition),
        }
    }

    pub fn read(self, reader: &mut Reader) -> u32 {
        match self {
            Editions::First => FIRST,
            Editions::BeforeEach => reader.u32(),
        }
    }
}
