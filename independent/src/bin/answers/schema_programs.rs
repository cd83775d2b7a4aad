//! The sample of schema_rows and schema_rewrite: document 01's example.

use independent::{resolve, rewrite, ROW_WIDTH};

use crate::nodes::{example, sheet_of};

pub fn input() -> Vec<u8> {
    sheet_of(&example())
}

pub fn rows(edition: u32, sheet: &[u8]) -> Vec<u8> {
    text_of_rows(edition, sheet, &mut [0; ROW_WIDTH * independent::sheet::MAX_NODES]).into()
}

/// The text of a sheet's rows, or of its refusal.
pub fn text_of_rows(edition: u32, sheet: &[u8], lent: &mut [u32]) -> String {
    match resolve(edition, sheet, lent) {
        Ok(count) => format!("nodes {count}\n{}", rows_text(&lent[..ROW_WIDTH * count as usize])),
        Err(refusal) => format!("{refusal}\n"),
    }
}

/// Rows as text, a line for each.
pub fn rows_text(rows: &[u32]) -> String {
    rows.chunks_exact(ROW_WIDTH)
        .map(|row| row.iter().map(u32::to_string).collect::<Vec<_>>().join(" ") + "\n")
        .collect()
}

pub fn rewritten(edition: u32, sheet: &[u8]) -> Vec<u8> {
    let mut out = vec![0; sheet.len()];
    match rewrite(edition, sheet, &mut out, 0) {
        Ok(_) => out,
        Err(refusal) => format!("{refusal}\n").into(),
    }
}
