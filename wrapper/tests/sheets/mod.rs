//! Sheets for the tests, laid out as document 01 says.

use griffeljol::codes::{converted, logical, physical, repetition};
use griffeljol::{Slot, SLOT_WIDTH};

const BLOCK: usize = 512;
const FIRST_SLOT: usize = 6;
const SLOTS: usize = 7;
const CHECK: usize = 510;

/// A root of so many children.
pub fn root(name: &str, child_count: u32) -> Slot {
    Slot { repetition: repetition::NONE, child_count, ..leaf(name, physical::GROUP) }
}

/// A required leaf without annotation.
pub fn leaf(name: &str, physical: u32) -> Slot {
    Slot {
        physical,
        repetition: repetition::REQUIRED,
        converted: converted::NONE,
        logical: logical::NONE,
        a: 0,
        b: 0,
        child_count: 0,
        type_length: 0,
        scale: 0,
        precision: 0,
        name: name.into(),
    }
}

/// The sheet of these slots.
pub fn sheet(slots: &[Slot]) -> Vec<u8> {
    let mut sheet = Vec::new();
    for (at, slots_here) in slots.chunks(SLOTS).enumerate() {
        let mut block = [0; BLOCK];
        block[..2].copy_from_slice(&(at as u16).to_le_bytes());
        block[2..4].copy_from_slice(&[slots_here.len() as u8, 1]);
        block[4..6].copy_from_slice(&(slots.len() as u16).to_le_bytes());
        for (bytes, slot) in block[FIRST_SLOT..].chunks_exact_mut(SLOT_WIDTH).zip(slots_here) {
            bytes.copy_from_slice(&bytes_of(slot));
        }
        let sum: u32 = block[..CHECK].iter().zip(1..).map(|(&byte, weight)| u32::from(byte) * weight).sum();
        block[CHECK..].copy_from_slice(&((sum % 65_521) as u16).to_le_bytes());
        sheet.extend(block);
    }
    sheet
}

/// The bytes of a slot.
fn bytes_of(slot: &Slot) -> [u8; SLOT_WIDTH] {
    let mut bytes = [0; SLOT_WIDTH];
    let codes = [slot.physical, slot.repetition, slot.converted, slot.logical, slot.a, slot.b];
    bytes[..6].copy_from_slice(&codes.map(|code| code as u8));
    bytes[6..8].copy_from_slice(&(slot.child_count as u16).to_le_bytes());
    bytes[8..12].copy_from_slice(&slot.type_length.to_le_bytes());
    bytes[12..16].copy_from_slice(&slot.scale.to_le_bytes());
    bytes[16..20].copy_from_slice(&slot.precision.to_le_bytes());
    bytes[20] = slot.name.len() as u8;
    bytes[24..][..slot.name.len()].copy_from_slice(&slot.name);
    bytes
}
