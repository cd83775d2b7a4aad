//! Blocks, checks, headers and slots of a sheet: refusal 21, and 1 to 4.

use std::ops::Range;

use crate::codes::{converted, logical, physical, repetition};
use crate::edition::Edition;
use crate::refusal::{self, Refusal};

/// Bytes of a block.
pub const BLOCK: usize = 512;
/// Bytes of a slot.
pub const SLOT: usize = 72;
/// Slots of a block.
pub const SLOTS: usize = 7;
/// The most blocks of a sheet.
pub const MAX_BLOCKS: usize = 128;
/// The most nodes of a sheet.
pub const MAX_NODES: usize = SLOTS * MAX_BLOCKS;
/// The longest name.
pub const MAX_NAME: usize = SLOT - NAME;

const HEADER: usize = 6;
const CHECK: usize = HEADER + SLOTS * SLOT;
const CHECK_MODULUS: u32 = 65_521;
const VERSION: u8 = 1;

/// Where a slot's converted type, logical type and parameters stand in it.
pub const ANNOTATION: Range<usize> = 2..6;
const NAME_LENGTH: usize = 20;
const NAME: usize = 24;

/// Where each field of a slot stands in it. The other bytes of a sound slot are zero.
pub const FIELDS: [Range<usize>; 12] =
    [0..1, 1..2, 2..3, 3..4, 4..5, 5..6, 6..8, 8..12, 12..16, 16..20, NAME_LENGTH..NAME_LENGTH + 1, NAME..SLOT];

/// A sheet of sound blocks and slots, and the edition that it is read by.
#[derive(Clone, Copy, Debug)]
pub struct Sheet<'a> {
    edition: Edition,
    bytes: &'a [u8],
    nodes: usize,
}

impl<'a> Sheet<'a> {
    /// Opens a sheet in an edition under refusal 21, then 1 to 4, each judged over the whole sheet before the next.
    pub fn open(edition: u32, bytes: &'a [u8]) -> Result<Self, Refusal> {
        let edition = Edition::known(edition)?;
        if bytes.is_empty() || !bytes.len().is_multiple_of(BLOCK) || bytes.len() > MAX_BLOCKS * BLOCK {
            return Err(Refusal::whole(refusal::SHEET_LENGTH));
        }
        let blocks = || bytes.chunks_exact(BLOCK);
        if let Some(at) = blocks().position(|block| read_u16(block, CHECK) != check(block)) {
            return Err(Refusal::at(refusal::BLOCK_CHECK, at));
        }
        let nodes = usize::from(Header::of(bytes).total);
        let fits = (1..=MAX_NODES).contains(&nodes) && nodes.div_ceil(SLOTS) == bytes.len() / BLOCK;
        let right = |(at, block)| fits && Header::of(block) == Header::right(at, nodes);
        if let Some(at) = blocks().enumerate().position(|numbered| !right(numbered)) {
            return Err(Refusal::at(refusal::BLOCK_HEADER, at));
        }
        let slots = blocks().flat_map(|block| block[HEADER..CHECK].chunks_exact(SLOT));
        let right = |(node, slot)| if node < nodes { is_sound(edition, slot) } else { is_zero(slot) };
        if let Some(at) = slots.enumerate().position(|numbered| !right(numbered)) {
            return Err(Refusal::at(refusal::SLOT, at));
        }
        Ok(Sheet { edition, bytes, nodes })
    }

    /// The edition that it is read by.
    pub fn edition(&self) -> Edition {
        self.edition
    }

    /// The bytes of the sheet.
    pub fn bytes(&self) -> &'a [u8] {
        self.bytes
    }

    /// How many nodes it has: T, at least 1.
    pub fn node_count(&self) -> usize {
        self.nodes
    }

    /// The slot of a node, which must be below T.
    pub fn slot(&self, node: usize) -> Slot<'a> {
        assert!(node < self.nodes);
        slot_at(self.bytes, node).expect("a used slot").1
    }

    /// The bytes of a node's slot; the node must be below T.
    pub fn slot_bytes(&self, node: usize) -> &'a [u8; SLOT] {
        assert!(node < self.nodes);
        self.bytes[slot_start(node)..].first_chunk().expect("a used slot")
    }

    /// Every used slot once, in order.
    pub fn slots(&self) -> impl ExactSizeIterator<Item = Slot<'a>> {
        let sheet = *self;
        (0..self.nodes).map(move |node| sheet.slot(node))
    }
}

/// The numbers of a block's header.
#[derive(PartialEq)]
struct Header {
    block: u16,
    nodes: u8,
    version: u8,
    total: u16,
}

impl Header {
    fn of(block: &[u8]) -> Self {
        Header { block: read_u16(block, 0), nodes: block[2], version: block[3], total: read_u16(block, 4) }
    }

    fn write(&self, block: &mut [u8]) {
        block[0..2].copy_from_slice(&self.block.to_le_bytes());
        block[2] = self.nodes;
        block[3] = self.version;
        block[4..6].copy_from_slice(&self.total.to_le_bytes());
    }

    /// What the header of the block at a place must be in a sheet of so many nodes.
    fn right(at: usize, total: usize) -> Self {
        let nodes = total.saturating_sub(SLOTS * at).min(SLOTS);
        Header { block: at as u16, nodes: nodes as u8, version: VERSION, total: total as u16 }
    }
}

/// The numbers of a slot, and its name.
#[derive(Clone, Copy, Debug, PartialEq, Eq)]
pub struct Slot<'a> {
    /// Physical type, or group.
    pub physical: u8,
    /// Repetition.
    pub repetition: u8,
    /// Converted type.
    pub converted: u8,
    /// Logical type.
    pub logical: u8,
    /// The logical type's first parameter.
    pub a: u8,
    /// The logical type's second parameter.
    pub b: u8,
    /// How many children it claims.
    pub children: u16,
    /// Type length.
    pub type_length: i32,
    /// Scale of a DECIMAL.
    pub scale: i32,
    /// Precision of a DECIMAL.
    pub precision: i32,
    /// The name length as it is stored.
    pub name_length: u8,
    /// The name: no longer than its 48 bytes.
    pub name: &'a [u8],
}

impl Slot<'_> {
    /// An unused slot, and what stands past the end of a sheet.
    pub const UNUSED: Slot<'static> = Slot {
        physical: 0,
        repetition: 0,
        converted: 0,
        logical: 0,
        a: 0,
        b: 0,
        children: 0,
        type_length: 0,
        scale: 0,
        precision: 0,
        name_length: 0,
        name: b"",
    };
}

impl<'a> Slot<'a> {
    /// Reads a slot's 72 bytes, whatever they hold.
    pub fn parse(slot: &'a [u8; SLOT]) -> Self {
        let name_length = slot[NAME_LENGTH];
        Slot {
            physical: slot[0],
            repetition: slot[1],
            converted: slot[2],
            logical: slot[3],
            a: slot[4],
            b: slot[5],
            children: read_u16(slot, 6),
            type_length: read_i32(slot, 8),
            scale: read_i32(slot, 12),
            precision: read_i32(slot, 16),
            name_length,
            name: &slot[NAME..][..usize::from(name_length).min(MAX_NAME)],
        }
    }

    /// The slot's 72 bytes, whatever its numbers are.
    pub fn to_bytes(&self) -> [u8; SLOT] {
        let mut slot = [0; SLOT];
        slot[..6].copy_from_slice(&[self.physical, self.repetition, self.converted, self.logical, self.a, self.b]);
        slot[6..8].copy_from_slice(&self.children.to_le_bytes());
        slot[8..12].copy_from_slice(&self.type_length.to_le_bytes());
        slot[12..16].copy_from_slice(&self.scale.to_le_bytes());
        slot[16..20].copy_from_slice(&self.precision.to_le_bytes());
        slot[NAME_LENGTH] = self.name_length;
        slot[NAME..][..self.name.len()].copy_from_slice(self.name);
        slot
    }

    /// Whether it is a group.
    pub fn is_group(&self) -> bool {
        self.physical == physical::GROUP
    }

    /// Whether it is repeated.
    pub fn is_repeated(&self) -> bool {
        self.repetition == repetition::REPEATED
    }

    /// Whether it is required or optional.
    pub fn is_single(&self) -> bool {
        repetition::is_single(self.repetition)
    }
}

/// Where the name of a node stands and the slot there, of any bytes; none past their end or past the most nodes.
pub fn slot_at(bytes: &[u8], node: usize) -> Option<(usize, Slot<'_>)> {
    if node >= MAX_NODES {
        return None;
    }
    let start = slot_start(node);
    let slot = bytes.get(start..)?.first_chunk()?;
    Some((start + NAME, Slot::parse(slot)))
}

/// The sheet that lists these slots, with its headers and checks right for up to 896 of them.
pub fn assemble(slots: &[Slot]) -> Vec<u8> {
    assemble_bytes(&slots.iter().map(Slot::to_bytes).collect::<Vec<_>>())
}

/// The same of slots by their bytes.
pub fn assemble_bytes(slots: &[[u8; SLOT]]) -> Vec<u8> {
    let mut sheet = vec![0; slots.len().div_ceil(SLOTS) * BLOCK];
    for (at, block) in sheet.chunks_exact_mut(BLOCK).enumerate() {
        Header::right(at, slots.len()).write(block);
    }
    for (node, slot) in slots.iter().enumerate() {
        sheet[slot_start(node)..][..SLOT].copy_from_slice(slot);
    }
    renew_checks(&mut sheet);
    sheet
}

/// Where the slot of a node starts.
pub fn slot_start(node: usize) -> usize {
    node / SLOTS * BLOCK + HEADER + node % SLOTS * SLOT
}

/// Stores the right check in every whole block.
pub fn renew_checks(bytes: &mut [u8]) {
    for block in bytes.chunks_exact_mut(BLOCK) {
        let check = check(block);
        block[CHECK..].copy_from_slice(&check.to_le_bytes());
    }
}

/// The sum of (i + 1) times byte i, modulo 65,521. It is at most 255 * 510 * 511 / 2, so 32 bits hold it.
fn check(block: &[u8]) -> u16 {
    let sum: u32 = block[..CHECK].iter().zip(1..).map(|(&byte, weight)| u32::from(byte) * weight).sum();
    (sum % CHECK_MODULUS) as u16
}

/// Whether a used slot's codes, name length and zero bytes are right in an edition.
fn is_sound(edition: Edition, slot: &[u8]) -> bool {
    let name_length = usize::from(slot[NAME_LENGTH]);
    physical::is_listed(slot[0])
        && repetition::is_listed(slot[1])
        && converted::is_listed(slot[2])
        && is_logical(edition, slot[3])
        && (1..=MAX_NAME).contains(&name_length)
        && is_zero(&slot[NAME_LENGTH + 1..NAME])
        && is_zero(&slot[NAME + name_length..])
}

/// Whether an edition lists a logical type.
fn is_logical(edition: Edition, code: u8) -> bool {
    logical::is_listed(code) || edition.has_geospatial_types() && logical::is_geospatial(code)
}

fn is_zero(bytes: &[u8]) -> bool {
    bytes.iter().all(|&byte| byte == 0)
}

fn read_u16(bytes: &[u8], at: usize) -> u16 {
    u16::from_le_bytes([bytes[at], bytes[at + 1]])
}

fn read_i32(bytes: &[u8], at: usize) -> i32 {
    i32::from_le_bytes([bytes[at], bytes[at + 1], bytes[at + 2], bytes[at + 3]])
}
