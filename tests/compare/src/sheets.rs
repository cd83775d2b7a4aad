//! Sheets made of slots, and where their fields stand.

use independent::sheet::{self, slot_start, BLOCK, SLOT, SLOTS};

use crate::random::Random;
use crate::trees::Slot;

/// The sheet that lists these slots, its headers and checks right for up to 896 of them.
pub fn assemble(slots: &[Slot]) -> Vec<u8> {
    let mut sheet = vec![0; slots.len().div_ceil(SLOTS) * BLOCK];
    for (at, block) in sheet.chunks_exact_mut(BLOCK).enumerate() {
        block[0..2].copy_from_slice(&(at as u16).to_le_bytes());
        block[2] = (slots.len() - SLOTS * at).min(SLOTS) as u8;
        block[3] = 1;
        block[4..6].copy_from_slice(&(slots.len() as u16).to_le_bytes());
    }
    for (node, slot) in slots.iter().enumerate() {
        sheet[slot_start(node)..][..SLOT].copy_from_slice(slot);
    }
    sheet::renew_checks(&mut sheet);
    sheet
}

/// The total that a sheet tells, whether it is right or not.
pub fn total_of(sheet: &[u8]) -> usize {
    sheet.get(4..6).map_or(0, |total| usize::from(u16::from_le_bytes([total[0], total[1]])))
}

/// Bytes that are no sheet, or look like one for a while: any length and content, or whole blocks with right checks, or
/// with right headers too.
pub fn random_bytes(random: &mut Random) -> Vec<u8> {
    let blocks = match random.below(100) {
        0 => 128,
        1 => 129,
        2 => random.between(100, 130),
        _ => random.between(1, 3),
    };
    let form = random.below(8);
    let length = match form {
        0 => random.below(1600),
        1 => blocks * BLOCK + random.pick(&[1, 2, 511]),
        2 => blocks * BLOCK - 1,
        _ => blocks * BLOCK,
    };
    let mut bytes = vec![0; length];
    if !random.percent(20) {
        random.fill(&mut bytes);
    }
    if form >= 4 {
        let last = random.between(1, SLOTS);
        let total = (blocks - 1) * SLOTS + last;
        for (at, block) in bytes.chunks_exact_mut(BLOCK).enumerate() {
            if form >= 6 {
                let here = if at + 1 == blocks { last } else { SLOTS };
                block[0..2].copy_from_slice(&(at as u16).to_le_bytes());
                block[2..4].copy_from_slice(&[here as u8, 1]);
                block[4..6].copy_from_slice(&(total as u16).to_le_bytes());
            }
        }
        sheet::renew_checks(&mut bytes);
    }
    bytes
}

/// Gives a block of a sheet a check below 15 by the bytes of a name, and stores that check plus 65,521, which is not it.
/// Answers whether it could.
pub fn store_unreduced(random: &mut Random, bytes: &mut [u8]) -> bool {
    const MODULUS: u32 = 65_521;
    let node = random.below(total_of(bytes).max(1));
    let start = slot_start(node);
    let Some(name_length) = bytes.get(start + 20).copied() else {
        return false;
    };
    if name_length < 2 {
        return false;
    }
    let block = start / BLOCK * BLOCK;
    // Two bytes of the name are free: all their contents are tried, and the check is moved on by what they count in it.
    let (first, second) = (start + 24, start + 25);
    (bytes[first], bytes[second]) = (0, 0);
    sheet::renew_checks(&mut bytes[block..block + BLOCK]);
    let without = u32::from(u16::from_le_bytes([bytes[block + 510], bytes[block + 511]]));
    let weight = (first - block) as u32 + 1;
    let from = random.byte();
    for x in (0..=255u8).map(|x| x.wrapping_add(from)) {
        for y in 0..=255 {
            let check = (without + weight * u32::from(x) + (weight + 1) * u32::from(y)) % MODULUS;
            if check < 65_536 - MODULUS {
                (bytes[first], bytes[second]) = (x, y);
                bytes[block + 510..block + 512].copy_from_slice(&((check + MODULUS) as u16).to_le_bytes());
                return true;
            }
        }
    }
    false
}
