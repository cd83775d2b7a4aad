//! What the command reads from the bytes of an accepted sheet, by the layout of document 01.

use griffeljol::codes::difference;
use griffeljol::SLOT_WIDTH;

/// Bytes of a block, where its slots start, and where its check stands.
const BLOCK: usize = 512;
const FIRST_SLOT: usize = 6;
const CHECK: usize = 510;
/// Slots of a block.
const SLOTS: usize = 7;
/// Where in a slot the logical type stands, the name's length, and the name.
const LOGICAL: usize = difference::LOGICAL as usize;
const NAME_LENGTH: usize = difference::NAME_LENGTH as usize;
const NAME: usize = difference::NAME as usize;

/// The name of a node.
pub fn name(sheet: &[u8], node: usize) -> &[u8] {
    let slot = slot(sheet, node);
    &slot[NAME..][..usize::from(slot[NAME_LENGTH])]
}

/// The logical type of a node, as its slot has it: one of the library's codes.
pub fn logical(sheet: &[u8], node: usize) -> u32 {
    slot(sheet, node)[LOGICAL].into()
}

/// The check that each block has stored.
pub fn checks(sheet: &[u8]) -> impl ExactSizeIterator<Item = u16> + '_ {
    sheet.chunks_exact(BLOCK).map(|block| u16::from_le_bytes([block[CHECK], block[CHECK + 1]]))
}

fn slot(sheet: &[u8], node: usize) -> &[u8] {
    &sheet[node / SLOTS * BLOCK + FIRST_SLOT + node % SLOTS * SLOT_WIDTH..][..SLOT_WIDTH]
}
