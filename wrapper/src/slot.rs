//! A node's slot, as document 01 lays it out.

use crate::codes::difference;

/// The bytes of a slot.
pub const SLOT_WIDTH: usize = 72;

/// The most bytes of a name.
pub const MAX_NAME: usize = SLOT_WIDTH - difference::NAME as usize;

/// What stands in the slot of a node. Annotations stand as they were written, and not as they resolve.
#[derive(Clone, Debug, PartialEq, Eq, Hash)]
pub struct Slot {
    /// Physical type, or group: one of [`crate::codes::physical`].
    pub physical: u32,
    /// One of [`crate::codes::repetition`].
    pub repetition: u32,
    /// One of [`crate::codes::converted`].
    pub converted: u32,
    /// One of [`crate::codes::logical`].
    pub logical: u32,
    /// The logical type's parameter a: bit width of an INTEGER, unit of a TIME or TIMESTAMP, else 0.
    pub a: u32,
    /// Its parameter b: 1 for a signed INTEGER and for a TIME or TIMESTAMP that is adjusted to UTC, else 0.
    pub b: u32,
    /// How many children it has.
    pub child_count: u32,
    /// Type length of a FIXED_LEN_BYTE_ARRAY, else 0.
    pub type_length: i32,
    /// Scale of a DECIMAL, else 0.
    pub scale: i32,
    /// Precision of a DECIMAL, else 0.
    pub precision: i32,
    /// The name, 1 to [`MAX_NAME`] bytes of any kind.
    pub name: Vec<u8>,
}

impl From<&[u8; SLOT_WIDTH]> for Slot {
    /// Takes a slot apart. A name length that no accepted sheet has ends at the slot's end.
    fn from(bytes: &[u8; SLOT_WIDTH]) -> Self {
        let at = |code| &bytes[code as usize..];
        let name = at(difference::NAME);
        Slot {
            physical: byte(at(difference::PHYSICAL)),
            repetition: byte(at(difference::REPETITION)),
            converted: byte(at(difference::CONVERTED)),
            logical: byte(at(difference::LOGICAL)),
            a: byte(at(difference::A)),
            b: byte(at(difference::B)),
            child_count: two_bytes(at(difference::CHILD_COUNT)),
            type_length: four_bytes(at(difference::TYPE_LENGTH)),
            scale: four_bytes(at(difference::SCALE)),
            precision: four_bytes(at(difference::PRECISION)),
            name: name[..MAX_NAME.min(byte(at(difference::NAME_LENGTH)) as usize)].to_vec(),
        }
    }
}

/// The number of a field of one byte, which stands first.
pub(crate) fn byte(content: &[u8]) -> u32 {
    content[0].into()
}

/// The number of a field of two bytes.
pub(crate) fn two_bytes(content: &[u8]) -> u32 {
    u16::from_le_bytes([content[0], content[1]]).into()
}

/// The number of a field of four bytes.
pub(crate) fn four_bytes(content: &[u8]) -> i32 {
    i32::from_le_bytes([content[0], content[1], content[2], content[3]])
}
