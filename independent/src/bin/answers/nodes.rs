//! Trees written down as calls, and the sheets that list them.

use independent::codes::{converted, logical, physical, repetition};
use independent::sheet::{self, Slot};

/// A node to make a slot of. It claims the fields it has unless another number is given.
#[derive(Clone)]
pub struct Node {
    pub physical: u8,
    pub repetition: u8,
    pub converted: u8,
    pub logical: u8,
    pub a: u8,
    pub b: u8,
    pub length: i32,
    pub scale: i32,
    pub precision: i32,
    pub name: Vec<u8>,
    pub fields: Vec<Node>,
    pub claim: Option<u16>,
}

impl Node {
    pub fn repetition(self, repetition: u8) -> Self {
        Node { repetition, ..self }
    }

    pub fn converted(self, converted: u8) -> Self {
        Node { converted, ..self }
    }

    pub fn logical(self, logical: u8) -> Self {
        Node { logical, ..self }
    }

    pub fn parameters(self, a: u8, b: u8) -> Self {
        Node { a, b, ..self }
    }

    pub fn length(self, length: i32) -> Self {
        Node { length, ..self }
    }

    pub fn digits(self, precision: i32, scale: i32) -> Self {
        Node { precision, scale, ..self }
    }

    pub fn named(self, name: impl AsRef<[u8]>) -> Self {
        Node { name: name.as_ref().to_vec(), ..self }
    }

    pub fn having(self, fields: impl IntoIterator<Item = Node>) -> Self {
        Node { fields: fields.into_iter().collect(), ..self }
    }

    pub fn claiming(self, claim: u16) -> Self {
        Node { claim: Some(claim), ..self }
    }

    /// How many children it claims.
    pub fn claimed(&self) -> u16 {
        self.claim.unwrap_or(self.fields.len() as u16)
    }

    pub fn slot(&self) -> Slot<'_> {
        Slot {
            physical: self.physical,
            repetition: self.repetition,
            converted: self.converted,
            logical: self.logical,
            a: self.a,
            b: self.b,
            children: self.claimed(),
            type_length: self.length,
            scale: self.scale,
            precision: self.precision,
            name_length: self.name.len() as u8,
            name: &self.name,
        }
    }

    /// The node and all below it, in listing order.
    pub fn listing(&self) -> Vec<&Node> {
        let mut nodes = vec![self];
        nodes.extend(self.fields.iter().flat_map(Node::listing));
        nodes
    }
}

/// A leaf of a physical type, required, of a right type length.
pub fn leaf(physical: u8) -> Node {
    Node {
        physical,
        repetition: repetition::REQUIRED,
        converted: converted::NONE,
        logical: logical::NONE,
        a: 0,
        b: 0,
        length: if physical == physical::FIXED { 16 } else { 0 },
        scale: 0,
        precision: 0,
        name: b"v".to_vec(),
        fields: Vec::new(),
        claim: None,
    }
}

/// A leaf of 32 bits.
pub fn int32() -> Node {
    leaf(physical::INT32)
}

pub fn group(fields: impl IntoIterator<Item = Node>) -> Node {
    leaf(physical::GROUP).named("g").having(fields)
}

pub fn root(fields: impl IntoIterator<Item = Node>) -> Node {
    group(fields).repetition(repetition::NONE).named("r")
}

/// A LIST by its converted type.
pub fn list(fields: impl IntoIterator<Item = Node>) -> Node {
    group(fields).converted(converted::LIST).named("parts")
}

/// A MAP by its logical type.
pub fn map(fields: impl IntoIterator<Item = Node>) -> Node {
    group(fields).logical(logical::MAP).named("m")
}

pub fn layer(fields: impl IntoIterator<Item = Node>) -> Node {
    group(fields).repetition(repetition::REPEATED).named("list")
}

pub fn key_value(fields: impl IntoIterator<Item = Node>) -> Node {
    layer(fields).named("key_value")
}

/// A key_value layer with a plain key and no value.
pub fn entry() -> Node {
    key_value([key()])
}

pub fn key() -> Node {
    int32().named("key")
}

/// The sheet of a tree.
pub fn sheet_of(top: &Node) -> Vec<u8> {
    sheet_of_nodes(&top.listing())
}

/// The sheet of nodes as they are listed.
pub fn sheet_of_nodes(nodes: &[&Node]) -> Vec<u8> {
    sheet::assemble(&nodes.iter().map(|node| node.slot()).collect::<Vec<_>>())
}

/// The sheet with other bytes at a place, and its checks made right.
pub fn changed(sheet: &[u8], at: usize, bytes: &[u8]) -> Vec<u8> {
    let mut changed = sheet.to_vec();
    changed[at..at + bytes.len()].copy_from_slice(bytes);
    sheet::renew_checks(&mut changed);
    changed
}

/// The tree of document 01's example.
pub fn example() -> Node {
    let element = leaf(physical::BYTE_ARRAY).repetition(repetition::OPTIONAL).converted(converted::UTF8);
    root([list([layer([element.named("element")])])])
}
