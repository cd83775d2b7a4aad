//! Changes to a sheet: in any field of a slot or a header, in any byte, and in what nodes there are.

use independent::annotation::{rewritten, Annotation};
use independent::codes::{converted, logical, physical};
use independent::sheet::{slot_start, BLOCK, MAX_NAME, SLOT, SLOTS};

use crate::random::Random;
use crate::sheets::total_of;
use crate::trees::{random_logical, Slot};

/// Changes one field of a sheet; its check is not renewed.
pub fn change(random: &mut Random, sheet: &mut Vec<u8>) {
    if sheet.len() < BLOCK {
        sheet.push(0);
        return;
    }
    match random.below(100) {
        0..76 => change_slot(random, sheet),
        76..84 => change_header(random, sheet),
        84..88 => change_unused(random, sheet),
        88..92 => {
            let at = random.below(sheet.len());
            sheet[at] = other_byte(random, sheet[at]);
        }
        92..96 => {
            // The check itself.
            let block = random.below(sheet.len() / BLOCK) * BLOCK;
            let stored = u16::from_le_bytes([sheet[block + 510], sheet[block + 511]]);
            let any = random.any() as u16;
            let other = random.pick(&[stored ^ 1, stored.wrapping_add(65_521), 0, 65_535, any]);
            sheet[block + 510..block + 512].copy_from_slice(&other.to_le_bytes());
        }
        _ => change_length(random, sheet),
    }
}

fn other_byte(random: &mut Random, byte: u8) -> u8 {
    let any = random.byte();
    random.pick(&[byte.wrapping_add(1), byte.wrapping_sub(1), byte ^ 0x80, 0, 255, any])
}

/// Changes a field of a used slot, most often one that matters where LIST and MAP stand.
fn change_slot(random: &mut Random, sheet: &mut [u8]) {
    let total = total_of(sheet).clamp(1, sheet.len() / BLOCK * SLOTS);
    let any = random.below(total);
    let near = (0..8).map(|_| random.below(total)).find(|&node| is_nested(&sheet[slot_start(node)..])).map(|node| {
        let further = random.below(3);
        (node + further).min(total - 1)
    });
    let node = near.filter(|_| random.percent(50)).unwrap_or(any);
    let slot = &mut sheet[slot_start(node)..][..SLOT];
    match random.below(26) {
        0 => slot[0] = random.pick(&[0, 1, 2, 3, 4, 5, 6, 7, 8, 9, 254, physical::GROUP, physical::GROUP]),
        1..4 => slot[1] = random.pick(&[0, 1, 2, 2, 3, 254, 255]),
        4 => {
            let any = random.between(0, 22) as u8;
            slot[2] = random.pick(&[any, any, converted::NONE, 254, converted::MAP_KEY_VALUE]);
        }
        5 => {
            let any = random.between(0, 19) as u8;
            slot[3] = random.pick(&[any, any, logical::NONE, 9, 255]);
        }
        6 => slot[4] = random.pick(&[0, 1, 2, 3, 4, 5, 8, 16, 32, 64, 65, 255]),
        7 => slot[5] = random.pick(&[0, 1, 2, 255]),
        8..10 => {
            let claimed = u16::from_le_bytes([slot[6], slot[7]]);
            let other = random.pick(&[
                claimed.wrapping_sub(1),
                claimed.wrapping_add(1),
                claimed.wrapping_add(2),
                0,
                1,
                2,
                3,
                65_535,
            ]);
            slot[6..8].copy_from_slice(&other.to_le_bytes());
        }
        10 => change_number(random, slot, 8, &[0, 1, 12, 16, 256, 257]),
        11 => change_number(random, slot, 12, &[0, 1, 8, 9]),
        12 => change_number(random, slot, 16, &[0, 1, 2, 9, 10, 18, 19, 38, 39]),
        13..15 => change_digits(random, slot),
        15 => slot[20] = random.pick(&[0, 1, 48, 49, 255, slot[20].wrapping_add(1), slot[20].wrapping_sub(1)]),
        16 => slot[random.between(21, 23)] = random.byte(),
        17 => slot[random.between(24, SLOT - 1)] = random.byte(),
        18..21 => rename(random, slot),
        21 => make_int96(random, slot),
        22 => make_geospatial(random, slot),
        _ => {
            // Another annotation, whole.
            let any = Annotation::Logical(random_logical(random));
            let annotation = random.pick(&[
                rewritten(any),
                rewritten(any),
                [converted::LIST, logical::NONE, 0, 0],
                [converted::MAP, logical::MAP, 0, 0],
                [converted::MAP_KEY_VALUE, logical::NONE, 0, 0],
                [converted::INTERVAL, logical::NONE, 0, 0],
                [converted::NONE, logical::NONE, 0, 0],
            ]);
            slot[2..6].copy_from_slice(&annotation);
        }
    }
}

/// Whether a slot is annotated as a LIST or a MAP.
fn is_nested(slot: &[u8]) -> bool {
    matches!(slot[2], converted::LIST | converted::MAP | converted::MAP_KEY_VALUE)
        || matches!(slot[3], logical::LIST | logical::MAP)
}

fn number(slot: &[u8], at: usize) -> i32 {
    i32::from_le_bytes([slot[at], slot[at + 1], slot[at + 2], slot[at + 3]])
}

/// Changes a signed number of a slot to one beside it, an edge, one of some, or any.
fn change_number(random: &mut Random, slot: &mut [u8], at: usize, some: &[i32]) {
    let held = number(slot, at);
    let any = random.any() as i32;
    let listed = random.pick(some);
    let other = random.pick(&[held.wrapping_add(1), held.wrapping_sub(1), -1, i32::MIN, i32::MAX, listed, listed, any]);
    slot[at..at + 4].copy_from_slice(&other.to_le_bytes());
}

/// Makes a slot a DECIMAL with precision and scale around the bounds that rule 11 has.
fn change_digits(random: &mut Random, slot: &mut [u8]) {
    slot[0] = random.pick(&[1, 2, 6, 7]);
    let (precision, length) = match slot[0] {
        1 => (random.pick(&[0, 1, 9, 10]), 0),
        2 => (random.pick(&[1, 18, 19]), 0),
        6 => (random.pick(&[-1, 1, 5, 617, i32::MAX]), 0),
        _ => random.pick(&[
            (2, 1),
            (3, 1),
            (4, 2),
            (5, 2),
            (38, 16),
            (39, 16),
            (616, 256),
            (617, 256),
            (1, 257),
            (618, 257),
        ]),
    };
    let scale = random.pick(&[0, 0, 1, -1, precision, precision.wrapping_sub(1)]);
    slot[2..6].copy_from_slice(&random.pick(&[[5, 0, 0, 0], [255, 5, 0, 0], [5, 5, 0, 0]]));
    slot[6..8].copy_from_slice(&[0, 0]);
    for (at, number) in [(8, length), (12, scale), (16, precision)] {
        slot[at..at + 4].copy_from_slice(&number.to_le_bytes());
    }
}

/// Makes a slot an INT96 without annotation or with one, at times with a fault that comes before that of the third edition.
fn make_int96(random: &mut Random, slot: &mut [u8]) {
    slot[0] = physical::INT96;
    slot[2..6].copy_from_slice(&random.pick(&[
        [converted::NONE, logical::NONE, 0, 0],
        [converted::NONE, logical::UNKNOWN, 0, 0],
        [converted::NONE, logical::TIMESTAMP, 3, 1],
        [converted::UTF8, logical::UNKNOWN, 0, 0],
        [converted::TIMESTAMP_MILLIS, logical::TIMESTAMP, 3, 1],
    ]));
    slot[8..20].fill(0);
    slot[8] = random.pick(&[0, 0, 0, 12]);
}

/// Makes a slot a leaf of GEOMETRY or GEOGRAPHY, or of a code beside theirs, at times with a fault.
fn make_geospatial(random: &mut Random, slot: &mut [u8]) {
    slot[0] =
        random.pick(&[physical::BYTE_ARRAY, physical::BYTE_ARRAY, physical::BYTE_ARRAY, physical::FIXED, slot[0]]);
    let code = random.pick(&[logical::GEOMETRY, logical::GEOGRAPHY, logical::GEOGRAPHY, 16, 19]);
    let a = random.pick(&[0, 1, 2, 3, 4, 5, 5, 5]);
    slot[2..6].copy_from_slice(&random.pick(&[
        [converted::NONE, code, 0, 0],
        [converted::NONE, code, a, 0],
        [converted::NONE, code, a, 1],
        [converted::UTF8, code, a, 0],
        [converted::BSON, code, 0, 0],
    ]));
    slot[8..20].fill(0);
    slot[8] = random.pick(&[0, 0, 0, 21]);
}

/// Gives a slot another name, of those that rule 12 looks at.
fn rename(random: &mut Random, slot: &mut [u8]) {
    let names: [&[u8]; 9] =
        [b"array", b"x_tuple", b"a_tuple", b"list_tuple", b"parts_tuple", b"_tuple", b"x", b"array_", b"parts"];
    let name = random.pick(&names);
    slot[20] = name.len() as u8;
    slot[24..24 + MAX_NAME].fill(0);
    slot[24..24 + name.len()].copy_from_slice(name);
}

fn change_header(random: &mut Random, sheet: &mut [u8]) {
    let block = random.below(sheet.len() / BLOCK) * BLOCK;
    let at = block + random.below(6);
    sheet[at] = other_byte(random, sheet[at]);
}

/// Changes a byte of an unused slot of the last block, where there is one.
fn change_unused(random: &mut Random, sheet: &mut [u8]) {
    let (total, slots) = (total_of(sheet), sheet.len() / BLOCK * SLOTS);
    if total < slots {
        let node = random.between(total, slots - 1);
        sheet[slot_start(node) + random.below(SLOT)] = random.between(1, 255) as u8;
    }
}

/// Cuts a sheet short or makes it longer.
fn change_length(random: &mut Random, sheet: &mut Vec<u8>) {
    let length = sheet.len();
    match random.below(6) {
        0 => sheet.truncate(length - 1),
        1 => sheet.truncate(random.below(length)),
        2 => sheet.truncate((length / BLOCK - 1) * BLOCK),
        3 => sheet.push(0),
        4 => sheet.resize(length + BLOCK, 0),
        _ => {
            let last = sheet[length - BLOCK..].to_vec();
            sheet.extend(last);
        }
    }
}

/// Changes what nodes a sheet has, or their order: fields are doubled or dropped with all that is below them and with their
/// parent's claim, or single nodes are moved without regard to the tree.
pub fn change_nodes(random: &mut Random, slots: &mut Vec<Slot>) {
    let (one, other) = (random.below(slots.len()), random.below(slots.len()));
    match random.below(10) {
        0..3 => double_field(slots, one),
        3..6 => drop_field(slots, one),
        6 if slots.len() > 1 => drop(slots.remove(one)),
        7 => slots.insert(other, slots[one]),
        8 => slots.truncate(one.max(1)),
        _ => slots.swap(one, other),
    }
}

/// Lets a field stand twice.
fn double_field(slots: &mut Vec<Slot>, field: usize) {
    let Some(parent) = parent_of(slots, field) else {
        return;
    };
    set_claim(&mut slots[parent], |claimed| claimed.saturating_add(1));
    let subtree = slots[field..subtree_end(slots, field)].to_vec();
    slots.splice(field..field, subtree);
}

/// Takes a field away.
fn drop_field(slots: &mut Vec<Slot>, field: usize) {
    let Some(parent) = parent_of(slots, field) else {
        return;
    };
    set_claim(&mut slots[parent], |claimed| claimed.saturating_sub(1));
    let end = subtree_end(slots, field);
    slots.drain(field..end);
}

fn claim_of(slot: &Slot) -> usize {
    usize::from(u16::from_le_bytes([slot[6], slot[7]]))
}

fn set_claim(slot: &mut Slot, claim: impl FnOnce(u16) -> u16) {
    let claimed = u16::from_le_bytes([slot[6], slot[7]]);
    slot[6..8].copy_from_slice(&claim(claimed).to_le_bytes());
}

/// One past the last descendant of a node, or the end where more are claimed than there are.
fn subtree_end(slots: &[Slot], node: usize) -> usize {
    let (mut open, mut end) = (1, node);
    while open > 0 && end < slots.len() {
        open = open + claim_of(&slots[end]) - 1;
        end += 1;
    }
    end
}

/// The nearest node before that has this one below it.
fn parent_of(slots: &[Slot], node: usize) -> Option<usize> {
    (0..node).rev().find(|&before| subtree_end(slots, before) > node)
}
