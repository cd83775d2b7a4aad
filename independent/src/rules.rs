//! The rules of a lawful tree: refusals 8 to 13, node by node.

use crate::annotation::{self, Annotation, Logical};
use crate::codes::{converted, logical, physical, repetition};
use crate::refusal::{self, Refusal};
use crate::sheet::{Sheet, Slot};
use crate::tree::Tree;

/// What a node is to the LIST or MAP above it.
#[derive(Clone, Copy, Debug, PartialEq, Eq)]
pub enum Role {
    /// A field, not repeated.
    Field = 0,
    /// The repeated layer between a LIST and its element.
    ListLayer = 1,
    /// The element of a LIST.
    Element = 2,
    /// The repeated group that is itself the element of a LIST.
    ElementLayer = 3,
    /// The repeated layer of a MAP.
    KeyValue = 4,
    /// The key of a MAP.
    Key = 5,
    /// The value of a MAP.
    Value = 6,
    /// A repeated node of no LIST or MAP.
    Repeated = 7,
}

/// What the rules make of a node.
#[derive(Clone, Copy, Debug)]
pub struct Node {
    /// Its annotation.
    pub annotation: Annotation,
    /// Its role.
    pub role: Role,
}

/// A tree that keeps every rule.
#[derive(Debug)]
pub struct Schema<'a> {
    tree: Tree<'a>,
    nodes: Vec<Node>,
}

impl<'a> Schema<'a> {
    /// Reads and judges a sheet by an edition: refusal 21, then 1 to 13.
    pub fn read(edition: u32, sheet: &'a [u8]) -> Result<Self, Refusal> {
        let tree = Tree::read(Sheet::open(edition, sheet)?)?;
        let nodes = judge(&tree)?;
        Ok(Schema { tree, nodes })
    }

    /// The tree.
    pub fn tree(&self) -> &Tree<'a> {
        &self.tree
    }

    /// What the rules make of each node, in order.
    pub fn nodes(&self) -> &[Node] {
        &self.nodes
    }
}

/// The annotation and role of each node, or the first rule broken at the first node that breaks one.
fn judge(tree: &Tree) -> Result<Vec<Node>, Refusal> {
    let edition = tree.sheet().edition();
    let mut nodes = vec![Node { annotation: Annotation::None, role: Role::Field }; tree.node_count()];
    for node in 0..tree.node_count() {
        let slot = tree.slot(node);
        let is_root = node == 0;
        if !has_shape(&slot, is_root) {
            return Err(Refusal::at(refusal::SHAPE, node));
        }
        let under_map = !is_root && nodes[tree.parent(node)].annotation == Annotation::Logical(Logical::Map);
        let annotation = annotation::resolve(edition, &slot, under_map).map_err(|number| Refusal::at(number, node))?;
        match annotation {
            Annotation::Logical(Logical::List) => {
                let layer = list_layer(tree, node).ok_or(Refusal::at(refusal::LIST, node))?;
                nodes[node + 1].role = layer;
                if layer == Role::ListLayer {
                    nodes[node + 2].role = Role::Element;
                }
            }
            Annotation::Logical(Logical::Map) => {
                let value = map_value(tree, node).ok_or(Refusal::at(refusal::MAP, node))?;
                nodes[node + 1].role = Role::KeyValue;
                nodes[node + 2].role = Role::Key;
                if let Some(value) = value {
                    nodes[value].role = Role::Value;
                }
            }
            _ => {}
        }
        nodes[node].annotation = annotation;
        if nodes[node].role == Role::Field && slot.is_repeated() {
            nodes[node].role = Role::Repeated;
        }
    }
    Ok(nodes)
}

/// Rule 8.
fn has_shape(slot: &Slot, is_root: bool) -> bool {
    let place = if is_root {
        slot.is_group()
            && slot.repetition == repetition::NONE
            && slot.converted == converted::NONE
            && slot.logical == logical::NONE
    } else {
        // A leaf has no children, a group at least one.
        slot.repetition != repetition::NONE && slot.is_group() == (slot.children > 0)
    };
    let is_decimal = slot.converted == converted::DECIMAL || slot.logical == logical::DECIMAL;
    place && is_type_length(slot.physical, slot.type_length) && (is_decimal || (slot.scale, slot.precision) == (0, 0))
}

/// Whether a node of a physical type, or a group, may have this type length.
pub fn is_type_length(physical: u8, type_length: i32) -> bool {
    if physical == physical::FIXED {
        type_length >= 1
    } else {
        type_length == 0
    }
}

/// Rule 12: the role of a LIST's one child, or none where the structure is wrong.
fn list_layer(tree: &Tree, list: usize) -> Option<Role> {
    let slot = tree.slot(list);
    if !(slot.is_single() && slot.children == 1) {
        return None;
    }
    let layer = tree.slot(list + 1);
    if !layer.is_repeated() {
        return None;
    }
    if !layer.is_group() {
        return Some(Role::Element);
    }
    match layer.children {
        0 => None,
        1 if layer.name == b"array" || is_tuple_of(layer.name, slot.name) => Some(Role::ElementLayer),
        // Document 02, R-2.
        1 if tree.slot(list + 2).is_repeated() => Some(Role::ElementLayer),
        1 => tree.slot(list + 2).is_single().then_some(Role::ListLayer),
        _ => Some(Role::ElementLayer),
    }
}

/// Whether a name is the list's name plus `_tuple`.
fn is_tuple_of(name: &[u8], list: &[u8]) -> bool {
    name.strip_prefix(list) == Some(b"_tuple")
}

/// Rule 13: a MAP's value, if it has one, or none where the structure is wrong.
fn map_value(tree: &Tree, map: usize) -> Option<Option<usize>> {
    let slot = tree.slot(map);
    if !(slot.is_single() && slot.children == 1) {
        return None;
    }
    let layer = tree.slot(map + 1);
    if !(layer.is_group() && layer.is_repeated() && matches!(layer.children, 1 | 2)) {
        return None;
    }
    let key = map + 2;
    if tree.slot(key).repetition != repetition::REQUIRED {
        return None;
    }
    if layer.children == 1 {
        return Some(None);
    }
    let value = tree.end(key);
    tree.slot(value).is_single().then_some(Some(value))
}
