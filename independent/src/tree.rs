//! The tree that a sheet lists: refusals 5 to 7.

use std::iter;

use crate::refusal::{self, Refusal};
use crate::sheet::{Sheet, Slot};

/// The greatest depth of a node; the root is at depth 0.
pub const MAX_DEPTH: usize = 32;

/// A sheet with the place of each of its nodes in the tree.
#[derive(Debug)]
pub struct Tree<'a> {
    sheet: Sheet<'a>,
    places: Vec<Place>,
}

/// A node's place in the tree.
#[derive(Clone, Copy, Debug)]
struct Place {
    parent: u16,
    end: u16,
}

impl<'a> Tree<'a> {
    /// Reads the tree off a sheet's child counts. A leaf that claims children has them here.
    pub fn read(sheet: Sheet<'a>) -> Result<Self, Refusal> {
        count_places(&sheet)?;
        let mut places: Vec<Place> = Vec::with_capacity(sheet.node_count());
        // The nodes from the root down that still miss children, each with how many.
        let mut open = [(0, 0); MAX_DEPTH + 1];
        let mut depth = 0;
        for (node, slot) in sheet.slots().enumerate() {
            if depth > MAX_DEPTH {
                return Err(Refusal::at(refusal::TOO_DEEP, node));
            }
            let parent = if depth == 0 { 0 } else { open[depth - 1].0 };
            places.push(Place { parent: parent as u16, end: 0 });
            open[depth] = (node, slot.children);
            // A node without missing children ends here, and is one child less for its parent to miss.
            while open[depth].1 == 0 {
                places[open[depth].0].end = places.len() as u16;
                if depth == 0 {
                    break;
                }
                depth -= 1;
                open[depth].1 -= 1;
            }
            depth += 1;
        }
        Ok(Tree { sheet, places })
    }

    /// The sheet it was read off.
    pub fn sheet(&self) -> Sheet<'a> {
        self.sheet
    }

    /// How many nodes it has.
    pub fn node_count(&self) -> usize {
        self.places.len()
    }

    /// The slot of a node.
    pub fn slot(&self, node: usize) -> Slot<'a> {
        self.sheet.slot(node)
    }

    /// The parent of a node; the root's is 0.
    pub fn parent(&self, node: usize) -> usize {
        usize::from(self.places[node].parent)
    }

    /// The children of a node, in order.
    pub fn children(&self, node: usize) -> impl Iterator<Item = usize> + '_ {
        let before_end = move |child: usize| (child < self.end(node)).then_some(child);
        iter::successors(before_end(node + 1), move |&child| before_end(self.end(child)))
    }

    /// One past the last descendant of a node.
    pub fn end(&self, node: usize) -> usize {
        usize::from(self.places[node].end)
    }
}

/// Refusals 6 and 5: open places after k nodes are 1 plus the sum of (children - 1).
fn count_places(sheet: &Sheet) -> Result<(), Refusal> {
    let mut open = 1;
    for (node, slot) in sheet.slots().enumerate() {
        if open == 0 {
            return Err(Refusal::at(refusal::NODES_LEFT, node));
        }
        open += usize::from(slot.children);
        open -= 1;
    }
    if open > 0 {
        return Err(Refusal::at(refusal::NODES_MISSING, sheet.node_count()));
    }
    Ok(())
}
