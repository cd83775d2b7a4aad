//! The rewritten sheet, with both annotations at every node.

use crate::annotation;
use crate::refusal::{self, Refusal};
use crate::rules::Schema;
use crate::sheet;

/// Judges a sheet by an edition and writes the rewritten one into the output from the start on; answers how many bytes it has.
/// Bytes before and after stay.
pub fn rewrite(edition: u32, sheet: &[u8], out: &mut [u8], start: usize) -> Result<u32, Refusal> {
    let schema = Schema::read(edition, sheet)?;
    let stretch =
        out.get_mut(start..).and_then(|rest| rest.get_mut(..sheet.len())).ok_or(Refusal::whole(refusal::OUTPUT))?;
    stretch.copy_from_slice(sheet);
    for (number, node) in schema.nodes().iter().enumerate() {
        let slot = &mut stretch[sheet::slot_start(number)..][..sheet::SLOT];
        slot[sheet::ANNOTATION].copy_from_slice(&annotation::rewritten(node.annotation));
    }
    sheet::renew_checks(stretch);
    Ok(sheet.len() as u32)
}
