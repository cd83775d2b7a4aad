//! `griffeljol tree`: a schema as an indented tree.

use griffeljol::{Row, MAX_SHEET};

use crate::answer::Answer;
use crate::arguments::{Arguments, JSON};
use crate::failure::Failure;
use crate::json::Json;
use crate::{files, layout, names, rows, table, words};

const TITLES: [&str; 7] = ["node", "level", "name", "type", "annotation", "repetition", "role"];

pub fn run(mut arguments: Arguments) -> Result<Answer, Failure> {
    let file = arguments.word("FILE")?;
    let edition = arguments.edition()?;
    let wants_json = arguments.has(JSON);
    arguments.end()?;
    let sheet = files::read(&file, MAX_SHEET)?;
    let rows = griffeljol::rows(edition, &sheet)?;
    let names: Vec<&[u8]> = (0..rows.len()).map(|node| layout::name(&sheet, node)).collect();
    let text = if wants_json {
        let levels = levels(&rows);
        let nodes = (0..rows.len()).map(|node| object(node, levels[node], names[node], &rows[node]));
        Json::Object(vec![("nodes", Json::List(nodes.collect()))]).line()
    } else {
        drawn(&rows, &names)
    };
    Ok(text.into())
}

/// How many nodes stand above each node.
fn levels(rows: &[Row]) -> Vec<usize> {
    let mut levels = vec![0; rows.len()];
    for node in 1..rows.len() {
        levels[node] = levels[rows[node].parent as usize] + 1;
    }
    levels
}

/// What is drawn in front of each name: a line from its parent, beside those to later fields of the nodes above.
fn branches(rows: &[Row]) -> Vec<String> {
    let mut branches = vec![String::new(); rows.len()];
    // What stands in front of the fields of each node.
    let mut stems = vec![String::new(); rows.len()];
    for node in 1..rows.len() {
        let parent = rows[node].parent as usize;
        let is_last = rows[node].end == rows[parent].end;
        let (branch, stem) = if is_last { ("└─ ", "   ") } else { ("├─ ", "│  ") };
        branches[node] = stems[parent].clone() + branch;
        stems[node] = stems[parent].clone() + stem;
    }
    branches
}

/// The tree with a line for each node, under a line of titles.
fn drawn(rows: &[Row], names: &[&[u8]]) -> String {
    let (levels, branches) = (levels(rows), branches(rows));
    let line = |node: usize| {
        let row = &rows[node];
        [
            node.to_string(),
            levels[node].to_string(),
            branches[node].clone() + &names::shown(names[node]),
            words::type_of(row),
            words::annotation(row).unwrap_or_default(),
            words::repetition(row.repetition).unwrap_or_default().to_owned(),
            if node == 0 { String::new() } else { words::role(row).to_owned() },
        ]
    };
    let lines: Vec<[String; 7]> = [TITLES.map(str::to_owned)].into_iter().chain((0..rows.len()).map(line)).collect();
    let widths = table::widths(&lines);
    let mut text = String::new();
    for [node, level, rest @ ..] in &lines {
        let mut line = format!("{node:>0$}  {level:>1$}", widths[0], widths[1]);
        for (cell, width) in rest.iter().zip(&widths[2..]) {
            line += &format!("  {cell:<width$}");
        }
        text += line.trim_end();
        text.push('\n');
    }
    text
}

/// A node with its words and its row.
fn object(node: usize, level: usize, name: &[u8], row: &Row) -> Json {
    let [name, name_hex] = names::members(name);
    Json::Object(vec![
        ("node", Json::number(node)),
        ("level", Json::number(level)),
        name,
        name_hex,
        ("type", Json::text(words::type_of(row))),
        ("annotation", Json::maybe(words::annotation(row))),
        ("repetition", Json::maybe(words::repetition(row.repetition))),
        ("role", Json::text(words::role(row))),
        ("row", rows::object(row)),
    ])
}
