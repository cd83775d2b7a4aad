//! The differences of two sheets, by document 02's R-1.

use std::collections::{HashMap, VecDeque};

use crate::edition::Edition;
use crate::refusal::{self, PairRefusal, Refusal};
use crate::rules::Schema;
use crate::sheet::{FIELDS, SLOT};
use crate::tree::Tree;

/// Bytes of an entry of the list: its code, a zero, the node number, and what each sheet holds.
pub const ENTRY: usize = SECOND_CONTENT + SLOT;
const NODE: usize = 2;
const FIRST_CONTENT: usize = 4;
const SECOND_CONTENT: usize = FIRST_CONTENT + SLOT;

/// The code of places among siblings. That of a field is where it begins in its slot.
pub const PLACES: u8 = 72;
/// The code of a node that only the first sheet has.
pub const ONLY_IN_FIRST: u8 = 73;
/// The code of a node that only the second sheet has.
pub const ONLY_IN_SECOND: u8 = 74;

/// An entry of the list.
#[derive(Clone, Copy, Debug, PartialEq, Eq)]
pub struct Entry {
    /// What differs.
    pub code: u8,
    /// The number of the node: the first sheet's, but where only the second has it.
    pub node: u16,
    /// What the first sheet holds, zero-filled.
    pub first: [u8; SLOT],
    /// What the second sheet holds, zero-filled.
    pub second: [u8; SLOT],
}

impl Entry {
    fn new(code: u8, node: usize, first: &[u8], second: &[u8]) -> Self {
        // Node numbers are below 896.
        Entry { code, node: node as u16, first: zero_filled(first), second: zero_filled(second) }
    }

    /// The entry's bytes.
    pub fn to_bytes(&self) -> [u8; ENTRY] {
        let mut entry = [0; ENTRY];
        entry[0] = self.code;
        entry[NODE..FIRST_CONTENT].copy_from_slice(&self.node.to_le_bytes());
        entry[FIRST_CONTENT..SECOND_CONTENT].copy_from_slice(&self.first);
        entry[SECOND_CONTENT..].copy_from_slice(&self.second);
        entry
    }

    /// Reads an entry's bytes, whatever they hold.
    pub fn parse(entry: &[u8; ENTRY]) -> Self {
        let node = usize::from(u16::from_le_bytes([entry[NODE], entry[NODE + 1]]));
        Entry::new(entry[0], node, &entry[FIRST_CONTENT..SECOND_CONTENT], &entry[SECOND_CONTENT..])
    }
}

fn zero_filled(content: &[u8]) -> [u8; SLOT] {
    let mut filled = [0; SLOT];
    filled[..content.len()].copy_from_slice(content);
    filled
}

/// Compares two sheets by an edition and writes the list of their differences; answers how many entries it has. Bytes beyond them stay.
/// Refusal 21, then those of the first sheet, then those of the second, then 14.
pub fn compare(edition: u32, first: &[u8], second: &[u8], out: &mut [u8]) -> Result<u32, PairRefusal> {
    let list = differences(edition, first, second)?;
    let too_short = PairRefusal::of_neither(Refusal::whole(refusal::OUTPUT));
    let written = out.get_mut(..ENTRY * list.len()).ok_or(too_short)?;
    for (bytes, entry) in written.chunks_exact_mut(ENTRY).zip(&list) {
        bytes.copy_from_slice(&entry.to_bytes());
    }
    Ok(list.len() as u32)
}

/// The list of two sheets' differences by an edition: refusal 21, then those of the first sheet, then those of the second.
pub fn differences(edition: u32, first: &[u8], second: &[u8]) -> Result<Vec<Entry>, PairRefusal> {
    Edition::known(edition).map_err(PairRefusal::of_neither)?;
    let first = Schema::read(edition, first).map_err(PairRefusal::of_first)?;
    let second = Schema::read(edition, second).map_err(PairRefusal::of_second)?;
    Ok(list_of(first.tree(), second.tree()))
}

/// The list of two trees: the first's nodes in their order, then those that only the second has in theirs.
fn list_of(first: &Tree, second: &Tree) -> Vec<Entry> {
    let matched = matched_nodes(first, second);
    let (first_places, second_places) = (places(first), places(second));
    let mut is_only_in_second = vec![true; second.node_count()];
    let mut list = Vec::new();
    for (node, matched) in matched.into_iter().enumerate() {
        let slot = first.sheet().slot_bytes(node);
        let Some(other) = matched else {
            list.push(Entry::new(ONLY_IN_FIRST, node, slot, &[]));
            continue;
        };
        is_only_in_second[other] = false;
        let other_slot = second.sheet().slot_bytes(other);
        for field in FIELDS {
            let (content, other_content) = (&slot[field.clone()], &other_slot[field.clone()]);
            if content != other_content {
                list.push(Entry::new(field.start as u8, node, content, other_content));
            }
        }
        let (place, other_place) = (first_places[node], second_places[other]);
        if place != other_place {
            list.push(Entry::new(PLACES, node, &place.to_le_bytes(), &other_place.to_le_bytes()));
        }
    }
    let only_in_second = (0..second.node_count()).filter(|&node| is_only_in_second[node]);
    list.extend(only_in_second.map(|node| Entry::new(ONLY_IN_SECOND, node, &[], second.sheet().slot_bytes(node))));
    list
}

/// For each node of the first tree the node of the second that it matches, if there is one: the roots match, and the children of matched
/// nodes by name, of those that share one the first the first and so on.
fn matched_nodes(first: &Tree, second: &Tree) -> Vec<Option<usize>> {
    let mut matched = vec![None; first.node_count()];
    matched[0] = Some(0);
    // A parent stands before its children.
    for node in 0..first.node_count() {
        let Some(other) = matched[node] else { continue };
        let mut by_name: HashMap<&[u8], VecDeque<usize>> = HashMap::new();
        for child in second.children(other) {
            by_name.entry(second.slot(child).name).or_default().push_back(child);
        }
        for child in first.children(node) {
            matched[child] = by_name.get_mut(first.slot(child).name).and_then(VecDeque::pop_front);
        }
    }
    matched
}

/// For each node its place among its siblings, from 0.
fn places(tree: &Tree) -> Vec<u16> {
    let mut places = vec![0; tree.node_count()];
    for node in 0..tree.node_count() {
        for (place, child) in (0..).zip(tree.children(node)) {
            places[child] = place;
        }
    }
    places
}
