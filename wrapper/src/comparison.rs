//! Comparing two sheets.

use crate::codes::difference;
use crate::refusal::compare_result;
use crate::slot::{byte, four_bytes, two_bytes};
use crate::{boundary, CompareRefusal, Edition, Slot, MAX_NAME, MAX_NODES, SLOT_WIDTH};

/// The bytes of an entry.
pub const ENTRY_WIDTH: usize = 148;

/// No two sheets have more entries: at most 13 for each node of the first, and 1 for each of the second.
pub const MAX_ENTRIES: usize = 14 * MAX_NODES;

/// Where the parts of an entry start: its code, its node's number, and the content of each side.
const CODE: usize = 0;
const NODE: usize = 2;
const FIRST: usize = 4;
const SECOND: usize = FIRST + SLOT_WIDTH;

/// Judges two sheets and writes [`ENTRY_WIDTH`] bytes for each difference, as document 02 lays them out; answers how many entries
/// there are. Bytes beyond them stay.
///
/// Refusal 21, then 1 to 13 of the first sheet, then of the second, then 14 where fewer than `ENTRY_WIDTH` bytes are lent for each
/// entry.
///
/// ```
/// use griffeljol::{compare, Edition, ENTRY_WIDTH};
///
/// let sheet = std::fs::read("../crates/schema_rows/stdin")?;
/// assert_eq!(compare(Edition::FIRST, &sheet, &sheet, &mut []), Ok(0));
///
/// let mut rewritten = vec![0; sheet.len()];
/// griffeljol::rewrite(Edition::FIRST, &sheet, &mut rewritten, 0)?;
/// let mut out = [0; 2 * ENTRY_WIDTH];
/// assert_eq!(compare(Edition::FIRST, &sheet, &rewritten, &mut out), Ok(2));
/// // The logical type of node 1.
/// assert_eq!(out[..4], [3, 0, 1, 0]);
/// # Ok::<(), Box<dyn std::error::Error>>(())
/// ```
pub fn compare(edition: Edition, first: &[u8], second: &[u8], out: &mut [u8]) -> Result<u32, CompareRefusal> {
    compare_result(boundary::compare(edition.number(), first, second, out))
}

/// The differences of two sheets: in the first one's node order the fields in which matched nodes differ, their places where these
/// differ, and the nodes that are only there; then in the second one's order the nodes that are only in it. None exactly where both
/// have the same paths in the same order with equal slots.
///
/// The roots match; children of matched nodes match by name, and where siblings share one, the first matches the first, and so on.
///
/// Refusal 21, then 1 to 13 of the first sheet, then of the second.
///
/// ```
/// use griffeljol::codes::logical;
/// use griffeljol::{differences, Difference, Edition, Field, Sides};
///
/// let sheet = std::fs::read("../crates/schema_rows/stdin")?;
/// assert_eq!(differences(Edition::FIRST, &sheet, &sheet), Ok(vec![]));
///
/// let mut rewritten = vec![0; sheet.len()];
/// griffeljol::rewrite(Edition::FIRST, &sheet, &mut rewritten, 0)?;
/// let differences = differences(Edition::FIRST, &sheet, &rewritten)?;
/// let field = Field::Logical(Sides { first: logical::NONE, second: logical::LIST });
/// assert_eq!(differences[0], Difference::Field { node: 1, field });
/// # Ok::<(), Box<dyn std::error::Error>>(())
/// ```
pub fn differences(edition: Edition, first: &[u8], second: &[u8]) -> Result<Vec<Difference>, CompareRefusal> {
    let mut entries = vec![0; ENTRY_WIDTH * MAX_ENTRIES];
    let count = compare(edition, first, second, &mut entries)? as usize;
    Ok(entries.chunks_exact(ENTRY_WIDTH).take(count).map(Difference::of).collect())
}

/// A difference of two sheets.
#[derive(Clone, Debug, PartialEq, Eq, Hash)]
pub enum Difference {
    /// A field in which two matched nodes differ.
    Field {
        /// The node's number in the first sheet.
        node: u32,
        /// The field, with both contents.
        field: Field,
    },
    /// The places of two matched nodes among their siblings, counted from 0.
    Place {
        /// The node's number in the first sheet.
        node: u32,
        /// Both places.
        places: Sides<u32>,
    },
    /// A node that is only in the first sheet.
    OnlyFirst {
        /// Its number there.
        node: u32,
        /// Its slot.
        slot: Slot,
    },
    /// A node that is only in the second sheet.
    OnlySecond {
        /// Its number there.
        node: u32,
        /// Its slot.
        slot: Slot,
    },
}

/// A field of a slot in which two matched nodes differ, with both contents: numbers as [`Slot`] has them.
#[derive(Clone, Copy, Debug, PartialEq, Eq, Hash)]
pub enum Field {
    /// Physical types, of [`crate::codes::physical`].
    Physical(Sides<u32>),
    /// Repetitions, of [`crate::codes::repetition`].
    Repetition(Sides<u32>),
    /// Converted types, of [`crate::codes::converted`].
    Converted(Sides<u32>),
    /// Logical types, of [`crate::codes::logical`].
    Logical(Sides<u32>),
    /// Parameters a of the logical types.
    A(Sides<u32>),
    /// Parameters b of the logical types.
    B(Sides<u32>),
    /// Numbers of children.
    ChildCount(Sides<u32>),
    /// Type lengths.
    TypeLength(Sides<i32>),
    /// Scales.
    Scale(Sides<i32>),
    /// Precisions.
    Precision(Sides<i32>),
    /// Lengths of the roots' names; other matched nodes have one name.
    NameLength(Sides<u32>),
    /// The roots' names, each with zeros behind it.
    Name(Sides<[u8; MAX_NAME]>),
}

/// What stands in each of two sheets.
#[derive(Clone, Copy, Debug, PartialEq, Eq, Hash)]
pub struct Sides<T> {
    /// In the first.
    pub first: T,
    /// In the second.
    pub second: T,
}

impl<T> Sides<T> {
    /// What a function makes of each side.
    pub fn map<U>(self, f: impl Fn(T) -> U) -> Sides<U> {
        Sides { first: f(self.first), second: f(self.second) }
    }

    /// Each side beside the same side of another two.
    pub fn zip<U>(self, other: Sides<U>) -> Sides<(T, U)> {
        Sides { first: (self.first, other.first), second: (self.second, other.second) }
    }

    /// Both sides by reference.
    pub fn as_ref(&self) -> Sides<&T> {
        Sides { first: &self.first, second: &self.second }
    }
}

impl Difference {
    /// The node's number: in the second sheet for a node that is only there, else in the first.
    pub fn node(&self) -> u32 {
        match *self {
            Difference::Field { node, .. }
            | Difference::Place { node, .. }
            | Difference::OnlyFirst { node, .. }
            | Difference::OnlySecond { node, .. } => node,
        }
    }

    /// The code of its entry, one of [`crate::codes::difference`].
    pub fn code(&self) -> u32 {
        match self {
            Difference::Field { field, .. } => field.code(),
            Difference::Place { .. } => difference::PLACE,
            Difference::OnlyFirst { .. } => difference::ONLY_FIRST,
            Difference::OnlySecond { .. } => difference::ONLY_SECOND,
        }
    }

    /// Takes an entry apart.
    fn of(entry: &[u8]) -> Self {
        let node = two_bytes(&entry[NODE..]);
        let sides = Sides { first: side(entry, FIRST), second: side(entry, SECOND) };
        match byte(&entry[CODE..]) {
            difference::PLACE => Difference::Place { node, places: sides.map(|side| two_bytes(side)) },
            difference::ONLY_FIRST => Difference::OnlyFirst { node, slot: sides.first.into() },
            difference::ONLY_SECOND => Difference::OnlySecond { node, slot: sides.second.into() },
            code => Difference::Field { node, field: Field::of(code, sides) },
        }
    }
}

impl Field {
    /// The code of its entry: where its first byte stands in the slot.
    pub fn code(&self) -> u32 {
        match self {
            Field::Physical(_) => difference::PHYSICAL,
            Field::Repetition(_) => difference::REPETITION,
            Field::Converted(_) => difference::CONVERTED,
            Field::Logical(_) => difference::LOGICAL,
            Field::A(_) => difference::A,
            Field::B(_) => difference::B,
            Field::ChildCount(_) => difference::CHILD_COUNT,
            Field::TypeLength(_) => difference::TYPE_LENGTH,
            Field::Scale(_) => difference::SCALE,
            Field::Precision(_) => difference::PRECISION,
            Field::NameLength(_) => difference::NAME_LENGTH,
            Field::Name(_) => difference::NAME,
        }
    }

    /// The field of a code, with the contents of both sides.
    fn of(code: u32, sides: Sides<&[u8; SLOT_WIDTH]>) -> Self {
        let bytes = || sides.map(|side| byte(side));
        let signed = || sides.map(|side| four_bytes(side));
        match code {
            difference::PHYSICAL => Field::Physical(bytes()),
            difference::REPETITION => Field::Repetition(bytes()),
            difference::CONVERTED => Field::Converted(bytes()),
            difference::LOGICAL => Field::Logical(bytes()),
            difference::A => Field::A(bytes()),
            difference::B => Field::B(bytes()),
            difference::CHILD_COUNT => Field::ChildCount(sides.map(|side| two_bytes(side))),
            difference::TYPE_LENGTH => Field::TypeLength(signed()),
            difference::SCALE => Field::Scale(signed()),
            difference::PRECISION => Field::Precision(signed()),
            difference::NAME_LENGTH => Field::NameLength(bytes()),
            difference::NAME => Field::Name(sides.map(|side| *side.first_chunk().expect("a side holds a name"))),
            _ => unreachable!("compare promises one of the fifteen codes"),
        }
    }
}

/// The content of a side, which starts here in an entry.
fn side(entry: &[u8], start: usize) -> &[u8; SLOT_WIDTH] {
    entry[start..].first_chunk().expect("an entry has two sides")
}
