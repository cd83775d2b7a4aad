//! `griffeljol rows`: the rows of a sheet, as document 01 prints them.

use griffeljol::{Row, MAX_SHEET};

use crate::answer::Answer;
use crate::arguments::{Arguments, JSON};
use crate::failure::Failure;
use crate::files;
use crate::json::Json;

pub fn run(mut arguments: Arguments) -> Result<Answer, Failure> {
    let file = arguments.word("FILE")?;
    let edition = arguments.edition()?;
    let wants_json = arguments.has(JSON);
    arguments.end()?;
    let rows = griffeljol::rows(edition, &files::read(&file, MAX_SHEET)?)?;
    let text = if wants_json {
        let nodes = ("nodes", Json::number(rows.len()));
        let rows = ("rows", Json::List(rows.iter().map(object).collect()));
        Json::Object(vec![nodes, rows]).line()
    } else {
        lines(&rows)
    };
    Ok(text.into())
}

/// `nodes T`, then a line for each row.
fn lines(rows: &[Row]) -> String {
    let mut text = format!("nodes {}\n", rows.len());
    for row in rows {
        text += &row.numbers().map(|number| number.to_string()).join(" ");
        text.push('\n');
    }
    text
}

/// A row's numbers by their names.
pub fn object(row: &Row) -> Json {
    Json::Object(vec![
        ("physical", Json::number(row.physical)),
        ("type_length", Json::number(row.type_length)),
        ("repetition", Json::number(row.repetition)),
        ("kind", Json::number(row.kind)),
        ("p1", Json::number(row.p1)),
        ("p2", Json::number(row.p2)),
        ("parent", Json::number(row.parent)),
        ("end", Json::number(row.end)),
        ("role", Json::number(row.role)),
        ("definition_level", Json::number(row.definition_level)),
        ("repetition_level", Json::number(row.repetition_level)),
    ])
}
