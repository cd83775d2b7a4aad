//! `griffeljol compare --report`: a page for two custodians to sign.

use griffeljol::codes::physical;
use griffeljol::{Edition, Sides};

use crate::compared::{Compared, LETTERS};
use crate::differences::{self, Told};
use crate::{failure, layout, table, words};

/// The characters of a line, where names allow it.
const WIDTH: usize = 120;
const INDENT: &str = "  ";
const GAP: &str = "  ";
/// Checks of blocks on a line.
const CHECKS_IN_LINE: usize = 8;
/// What each custodian fills in.
const TO_SIGN: &str =
    "name ______________________________   date ____________   signature ______________________________";

const TITLES: [&str; 4] = ["path", "type", "annotation", "repetition"];
/// A column of a sheet under the titles.
type Line = [String; TITLES.len()];

/// The page: both sheets, their columns, the differences, and lines to sign.
pub fn page(edition: Edition, sheets: &Sides<Compared>, told: &[Told]) -> String {
    let columns = sheets.as_ref().map(columns);
    let mut page = format!("Comparison of two schema sheets, judged by edition {}\n", edition.number());
    for ((letter, sheet), columns) in both(LETTERS.zip(sheets.as_ref()).zip(columns.as_ref())) {
        page += &format!("\nSheet {letter}: {}\n{}", failure::input(&sheet.file), facts(sheet, columns.len()));
    }
    if columns.first == columns.second {
        page += &format!("\nColumns, the same in {} and {}\n{}", LETTERS.first, LETTERS.second, drawn(columns.first));
    } else {
        for (letter, columns) in both(LETTERS.zip(columns)) {
            page += &format!("\nColumns of {letter}\n{}", drawn(columns));
        }
    }
    page += &format!("\nDifferences from {} to {}\n", LETTERS.first, LETTERS.second);
    page.extend(differences::lines(told).iter().map(|line| format!("{INDENT}{line}")));
    for letter in both(LETTERS) {
        page += &format!("\n\nCustodian of {letter}   {TO_SIGN}\n");
    }
    page
}

/// The first and then the second.
fn both<T>(sides: Sides<T>) -> [T; 2] {
    [sides.first, sides.second]
}

/// A sheet's length, the check of each block, and how many nodes and columns there are.
fn facts(sheet: &Compared, columns: usize) -> String {
    let checks: Vec<String> =
        layout::checks(&sheet.bytes).enumerate().map(|(block, check)| format!("{block:>3}: {check:>5}")).collect();
    let mut facts = vec![["length".to_owned(), format!("{} bytes", sheet.bytes.len())]];
    for (at, checks) in checks.chunks(CHECKS_IN_LINE).enumerate() {
        let label = if at == 0 { "checks by block" } else { "" };
        facts.push([label.to_owned(), checks.join(GAP)]);
    }
    facts.push(["nodes".to_owned(), sheet.rows.len().to_string()]);
    facts.push(["columns".to_owned(), columns.to_string()]);
    let [width, _] = table::widths(&facts);
    facts.iter().map(|[label, fact]| format!("{INDENT}{label:<width$}{GAP}{fact}\n")).collect()
}

/// The columns of a sheet, which are its leaves.
fn columns(sheet: &Compared) -> Vec<Line> {
    let leaves = sheet.rows.iter().zip(&sheet.paths).filter(|(row, _)| row.physical != physical::GROUP);
    let line = |row, path: &String| {
        [
            path.clone(),
            words::type_of(row),
            words::annotation(row).unwrap_or_default(),
            words::repetition(row.repetition).unwrap_or_default().to_owned(),
        ]
    };
    leaves.map(|(row, path)| line(row, path)).collect()
}

/// Columns under their titles. A path that would make the page wider than it is has a line of its own.
fn drawn(columns: Vec<Line>) -> String {
    if columns.is_empty() {
        return format!("{INDENT}none\n");
    }
    let lines: Vec<Line> = [TITLES.map(str::to_owned)].into_iter().chain(columns).collect();
    let [longest, widths @ ..] = table::widths(&lines);
    let beside: usize = widths.iter().map(|width| GAP.len() + width).sum();
    let path_width = longest.min(WIDTH.saturating_sub(INDENT.len() + beside));
    let mut text = String::new();
    for [path, rest @ ..] in &lines {
        let mut line = format!("{INDENT}{path:<path_width$}");
        if path.chars().count() > path_width {
            text += &line;
            text.push('\n');
            line = format!("{INDENT}{:<path_width$}", "");
        }
        for (cell, width) in rest.iter().zip(widths) {
            line += &format!("{GAP}{cell:<width$}");
        }
        text += line.trim_end();
        text.push('\n');
    }
    text
}
