//! Sheets for the tests, laid out as document 01 says.

const BLOCK: usize = 512;
const FIRST_SLOT: usize = 6;
const SLOTS: usize = 7;
const SLOT: usize = 72;
const CHECK: usize = 510;

pub const INT32: u8 = 1;
pub const BYTE_ARRAY: u8 = 6;
pub const FIXED: u8 = 7;
pub const GROUP: u8 = 255;
pub const REQUIRED: u8 = 0;
pub const OPTIONAL: u8 = 1;
pub const REPEATED: u8 = 2;
pub const NONE: u8 = 255;

/// The numbers of a slot, and its name.
#[derive(Clone)]
pub struct Node {
    pub physical: u8,
    pub repetition: u8,
    pub converted: u8,
    pub logical: u8,
    pub parameters: [u8; 2],
    pub children: u16,
    pub type_length: i32,
    pub scale: i32,
    pub precision: i32,
    pub name: Vec<u8>,
}

impl Node {
    /// A node without annotation.
    pub fn new(name: &str, physical: u8, repetition: u8, children: u16) -> Self {
        Node {
            physical,
            repetition,
            converted: NONE,
            logical: 0,
            parameters: [0, 0],
            children,
            type_length: 0,
            scale: 0,
            precision: 0,
            name: name.into(),
        }
    }

    /// A root of so many children.
    pub fn root(children: u16) -> Self {
        Self::new("r", GROUP, NONE, children)
    }

    /// A group of so many children.
    pub fn group(name: &str, repetition: u8, children: u16) -> Self {
        Self::new(name, GROUP, repetition, children)
    }

    /// A leaf.
    pub fn leaf(name: &str, physical: u8, repetition: u8) -> Self {
        Self::new(name, physical, repetition, 0)
    }

    /// This node with a type length.
    pub fn sized(self, type_length: i32) -> Self {
        Node { type_length, ..self }
    }

    /// This node with a logical type.
    pub fn logical(self, logical: u8, a: u8, b: u8) -> Self {
        Node { logical, parameters: [a, b], ..self }
    }

    /// This node as a DECIMAL.
    pub fn decimal(self, precision: i32, scale: i32) -> Self {
        Node { logical: 5, precision, scale, ..self }
    }

    fn bytes(&self) -> [u8; SLOT] {
        let mut slot = [0; SLOT];
        slot[..4].copy_from_slice(&[self.physical, self.repetition, self.converted, self.logical]);
        slot[4..6].copy_from_slice(&self.parameters);
        slot[6..8].copy_from_slice(&self.children.to_le_bytes());
        slot[8..12].copy_from_slice(&self.type_length.to_le_bytes());
        slot[12..16].copy_from_slice(&self.scale.to_le_bytes());
        slot[16..20].copy_from_slice(&self.precision.to_le_bytes());
        slot[20] = self.name.len() as u8;
        slot[24..][..self.name.len()].copy_from_slice(&self.name);
        slot
    }
}

/// The sheet of these nodes.
pub fn sheet(nodes: &[Node]) -> Vec<u8> {
    let mut sheet = Vec::new();
    for (at, nodes_here) in nodes.chunks(SLOTS).enumerate() {
        let mut block = [0; BLOCK];
        block[..2].copy_from_slice(&(at as u16).to_le_bytes());
        block[2..4].copy_from_slice(&[nodes_here.len() as u8, 1]);
        block[4..6].copy_from_slice(&(nodes.len() as u16).to_le_bytes());
        for (slot, node) in nodes_here.iter().enumerate() {
            block[FIRST_SLOT + slot * SLOT..][..SLOT].copy_from_slice(&node.bytes());
        }
        sheet.extend(block);
    }
    renew_checks(&mut sheet);
    sheet
}

/// Stores the right check in every block.
pub fn renew_checks(sheet: &mut [u8]) {
    for block in sheet.chunks_exact_mut(BLOCK) {
        let sum: u32 = block[..CHECK].iter().zip(1..).map(|(&byte, weight)| u32::from(byte) * weight).sum();
        block[CHECK..].copy_from_slice(&((sum % 65_521) as u16).to_le_bytes());
    }
}
