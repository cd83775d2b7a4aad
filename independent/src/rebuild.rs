//! The second of two compared sheets, from the first and the list of their differences.

use std::collections::HashMap;

use crate::compare::{Entry, ENTRY, ONLY_IN_FIRST, ONLY_IN_SECOND, PLACES};
use crate::edition;
use crate::sheet::{assemble_bytes, Sheet, Slot, FIELDS, MAX_NODES, SLOT};
use crate::tree::Tree;

/// The second sheet, from the first and the list alone; none where the list leads to no sheet.
pub fn rebuild(first: &[u8], list: &[u8]) -> Option<Vec<u8>> {
    // What a sheet must be to have a tree does not go by the edition, but for the codes, of which the third lists all.
    let tree = Tree::read(Sheet::open(edition::THIRD, first).ok()?).ok()?;
    let mut second = Second::like(&tree);
    for entry in list.chunks(ENTRY) {
        second.change(&Entry::parse(entry.try_into().ok()?))?;
    }
    let mut slots = Vec::new();
    second.lay(&tree, 0, &mut slots)?;
    (slots.len() <= MAX_NODES).then(|| assemble_bytes(&slots))
}

/// What is known of the second sheet.
struct Second {
    /// By the first sheet's node numbers, the nodes that both sheets have.
    matched: Vec<Option<Matched>>,
    /// By the second sheet's node numbers, the slots of the nodes that only it has.
    only: HashMap<usize, [u8; SLOT]>,
}

/// A node that both sheets have, as it is in the second.
#[derive(Clone, Copy)]
struct Matched {
    slot: [u8; SLOT],
    /// Its place among its siblings.
    place: u16,
}

impl Second {
    /// A sheet like the first.
    fn like(tree: &Tree) -> Self {
        let mut matched = vec![Some(Matched { slot: *tree.sheet().slot_bytes(0), place: 0 }); tree.node_count()];
        for node in 0..tree.node_count() {
            for (place, child) in (0..).zip(tree.children(node)) {
                matched[child] = Some(Matched { slot: *tree.sheet().slot_bytes(child), place });
            }
        }
        Second { matched, only: HashMap::new() }
    }

    /// Takes in an entry of the list; none where it tells of no node that both sheets have, or of no field.
    fn change(&mut self, entry: &Entry) -> Option<()> {
        let node = usize::from(entry.node);
        if entry.code == ONLY_IN_SECOND {
            self.only.insert(node, entry.second);
            return Some(());
        }
        let matched = self.matched.get_mut(node)?;
        match (entry.code, matched.as_mut()?) {
            (ONLY_IN_FIRST, _) => *matched = None,
            (PLACES, second) => second.place = u16::from_le_bytes([entry.second[0], entry.second[1]]),
            (code, second) => {
                let field = FIELDS.into_iter().find(|field| field.start == usize::from(code))?;
                second.slot[field.clone()].copy_from_slice(&entry.second[..field.len()]);
            }
        }
        Some(())
    }

    /// Appends the slots of a node that both sheets have, by the first sheet's number, and of all below it.
    fn lay(&self, tree: &Tree, node: usize, slots: &mut Vec<[u8; SLOT]>) -> Option<()> {
        let Matched { slot, .. } = self.matched[node]?;
        slots.push(slot);
        let children = tree.children(node).filter_map(|child| Some((self.matched[child]?.place, child)));
        let by_place: HashMap<u16, usize> = children.collect();
        for place in 0..Slot::parse(&slot).children {
            if self.only.contains_key(&slots.len()) {
                self.lay_only(slots)?;
            } else {
                self.lay(tree, *by_place.get(&place)?, slots)?;
            }
        }
        Some(())
    }

    /// Appends the slots of a node that only the second sheet has, and of all below it, which only it has too.
    fn lay_only(&self, slots: &mut Vec<[u8; SLOT]>) -> Option<()> {
        let mut open = 1;
        while open > 0 {
            let slot = self.only.get(&slots.len())?;
            slots.push(*slot);
            open += usize::from(Slot::parse(slot).children);
            open -= 1;
        }
        Some(())
    }
}
