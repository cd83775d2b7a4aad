//! Resolved rows.

use crate::codes::repetition::{OPTIONAL, REPEATED};
use crate::refusal::{self, Refusal};
use crate::rules::Schema;
use crate::tree::Tree;

/// Numbers of a row: physical, type length, repetition, kind, p1, p2, parent, end, role, definition level, repetition level.
pub const ROW_WIDTH: usize = 11;

/// Judges a sheet by an edition and writes a row for each of its nodes; answers how many nodes it has. Numbers beyond the rows stay.
pub fn resolve(edition: u32, sheet: &[u8], rows: &mut [u32]) -> Result<u32, Refusal> {
    let schema = Schema::read(edition, sheet)?;
    let count = schema.nodes().len();
    let rows = rows.get_mut(..ROW_WIDTH * count).ok_or(Refusal::whole(refusal::OUTPUT))?;
    let levels = levels(schema.tree());
    for (node, row) in rows.chunks_exact_mut(ROW_WIDTH).enumerate() {
        row.copy_from_slice(&row_of(&schema, node, levels[node]));
    }
    Ok(count as u32)
}

/// The row of a node.
fn row_of(schema: &Schema, node: usize, [definition_level, repetition_level]: [u32; 2]) -> [u32; ROW_WIDTH] {
    let tree = schema.tree();
    let slot = tree.slot(node);
    let annotation = schema.nodes()[node].annotation;
    let (p1, p2) = annotation.parameters(&slot);
    [
        slot.physical.into(),
        // Rule 8 lets no negative number through.
        slot.type_length as u32,
        slot.repetition.into(),
        annotation.kind(slot.is_group()).into(),
        p1,
        p2,
        tree.parent(node) as u32,
        tree.end(node) as u32,
        schema.nodes()[node].role as u32,
        definition_level,
        repetition_level,
    ]
}

/// For each node, how many nodes on the path from the root to it, itself included, are optional or repeated, and how many are repeated.
fn levels(tree: &Tree) -> Vec<[u32; 2]> {
    let mut levels: Vec<[u32; 2]> = Vec::with_capacity(tree.node_count());
    for node in 0..tree.node_count() {
        let [definition, repetition] = if node == 0 { [0, 0] } else { levels[tree.parent(node)] };
        levels.push(match tree.slot(node).repetition {
            OPTIONAL => [definition + 1, repetition],
            REPEATED => [definition + 1, repetition + 1],
            _ => [definition, repetition],
        });
    }
    levels
}
