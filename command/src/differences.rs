//! Differences of two sheets, in words and as JSON.

use std::fmt::Display;

use griffeljol::{Difference, Field, Sides, Slot};

use crate::compared::{Compared, LETTERS};
use crate::json::Json;
use crate::{layout, names, words};

/// The root's number.
const ROOT: usize = 0;

/// A difference of the library's list, as it is told.
pub struct Told {
    node: u32,
    path: String,
    code: u32,
    field: &'static str,
    contents: Contents,
}

/// What stands in the sheets that have the node.
enum Contents {
    Both(Sides<Content>),
    OnlyFirst(Content),
    OnlySecond(Content),
}

/// A content in words, and as JSON has it.
struct Content {
    words: String,
    value: Json,
}

impl Content {
    fn new(words: impl Into<String>, value: Json) -> Self {
        Content { words: words.into(), value }
    }

    /// A code with its word.
    fn code(word: &str, code: u32) -> Self {
        Self::new(word, Json::number(code))
    }

    /// A number that stands for itself.
    fn number(number: impl Display) -> Self {
        Self::new(number.to_string(), Json::number(number))
    }

    /// A name.
    fn name(name: &[u8]) -> Self {
        Self::new(names::shown(name), Json::Object(names::members(name).into()))
    }

    /// A node of a sheet, by its row in words, and with all that its slot has.
    fn node(sheet: &Compared, node: u32, slot: &Slot) -> Self {
        let row = &sheet.rows[node as usize];
        let mut words = format!("{} {}", words::repetition(row.repetition).unwrap_or(words::NONE), words::type_of(row));
        if let Some(annotation) = words::annotation(row) {
            words += " ";
            words += &annotation;
        }
        Self::new(words, slot_object(slot))
    }
}

/// The library's differences, each with its path and its contents.
pub fn told(found: &[Difference], sheets: &Sides<Compared>) -> Vec<Told> {
    let logical = logical_types(found, &sheets.first);
    let told = |difference: &Difference| {
        let node = difference.node();
        let (field, contents) = match difference {
            Difference::Field { field, .. } => {
                let (name, contents) = field_contents(*field, logical[node as usize], sheets);
                (name, Contents::Both(contents))
            }
            Difference::Place { places, .. } => ("place", Contents::Both(places.map(Content::number))),
            Difference::OnlyFirst { slot, .. } => {
                ("node", Contents::OnlyFirst(Content::node(&sheets.first, node, slot)))
            }
            Difference::OnlySecond { slot, .. } => {
                ("node", Contents::OnlySecond(Content::node(&sheets.second, node, slot)))
            }
        };
        let numbered = match difference {
            Difference::OnlySecond { .. } => &sheets.second,
            _ => &sheets.first,
        };
        Told { node, path: numbered.paths[node as usize].clone(), code: difference.code(), field, contents }
    };
    found.iter().map(told).collect()
}

/// The logical type that each node of the first sheet has there, and in the second: the same, unless the list has another.
fn logical_types(found: &[Difference], first: &Compared) -> Vec<Sides<u32>> {
    let of_both = |logical| Sides { first: logical, second: logical };
    let mut types: Vec<_> = (0..first.rows.len()).map(|node| of_both(layout::logical(&first.bytes, node))).collect();
    for difference in found {
        if let Difference::Field { node, field: Field::Logical(sides) } = *difference {
            types[node as usize] = sides;
        }
    }
    types
}

/// A field's name and its contents, in a node of these logical types. Of matched nodes only the roots differ in their names.
fn field_contents(field: Field, logical: Sides<u32>, sheets: &Sides<Compared>) -> (&'static str, Sides<Content>) {
    match field {
        Field::Physical(codes) => ("physical", codes.map(|code| Content::code(words::physical(code), code))),
        Field::Repetition(codes) => {
            let word = |code| words::repetition(code).unwrap_or(words::NONE);
            ("repetition", codes.map(|code| Content::code(word(code), code)))
        }
        Field::Converted(codes) => ("converted", codes.map(|code| Content::code(words::converted(code), code))),
        Field::Logical(codes) => ("logical", codes.map(|code| Content::code(words::logical(code), code))),
        Field::A(codes) => {
            let content = |(a, logical)| Content::code(&words::parameter_a(logical, a), a);
            ("parameter a", codes.zip(logical).map(content))
        }
        Field::B(codes) => {
            let content = |(b, logical)| Content::code(words::parameter_b(logical, b), b);
            ("parameter b", codes.zip(logical).map(content))
        }
        Field::ChildCount(numbers) => ("child count", numbers.map(Content::number)),
        Field::TypeLength(numbers) => ("type length", numbers.map(Content::number)),
        Field::Scale(numbers) => ("scale", numbers.map(Content::number)),
        Field::Precision(numbers) => ("precision", numbers.map(Content::number)),
        Field::NameLength(numbers) => ("name length", numbers.map(Content::number)),
        Field::Name(names) => {
            let length = |sheet: &Compared| layout::name(&sheet.bytes, ROOT).len();
            ("name", names.zip(sheets.as_ref()).map(|(name, sheet)| Content::name(&name[..length(sheet)])))
        }
    }
}

/// A line for each difference, and one with their number.
pub fn lines(told: &[Told]) -> Vec<String> {
    let number = match told.len() {
        0 => "no differences\n".to_owned(),
        1 => "1 difference\n".to_owned(),
        many => format!("{many} differences\n"),
    };
    told.iter().map(Told::line).chain([number]).collect()
}

/// The number of differences and their list.
pub fn object(told: Vec<Told>) -> Json {
    let count = Json::number(told.len());
    let list = told.into_iter().map(Told::object).collect();
    Json::Object(vec![("count", count), ("differences", Json::List(list))])
}

impl Told {
    /// The second sheet's content, and the first's behind `was`.
    fn line(&self) -> String {
        let Told { path, field, .. } = self;
        match &self.contents {
            Contents::Both(Sides { first, second }) => {
                format!("{path}: {field} {}, was {}\n", second.words, first.words)
            }
            Contents::OnlyFirst(content) => format!("{path}: only in {}, {}\n", LETTERS.first, content.words),
            Contents::OnlySecond(content) => format!("{path}: only in {}, {}\n", LETTERS.second, content.words),
        }
    }

    /// The difference with the values of both contents, null where the node is not.
    fn object(self) -> Json {
        let values = match self.contents {
            Contents::Both(contents) => contents.map(|content| content.value),
            Contents::OnlyFirst(content) => Sides { first: content.value, second: Json::Null },
            Contents::OnlySecond(content) => Sides { first: Json::Null, second: content.value },
        };
        Json::Object(vec![
            ("node", Json::number(self.node)),
            ("path", Json::Text(self.path)),
            ("code", Json::number(self.code)),
            ("field", Json::text(self.field.replace(' ', "_"))),
            (LETTERS.first, values.first),
            (LETTERS.second, values.second),
        ])
    }
}

/// All that stands in a slot.
fn slot_object(slot: &Slot) -> Json {
    let [name, name_hex] = names::members(&slot.name);
    Json::Object(vec![
        ("physical", Json::number(slot.physical)),
        ("repetition", Json::number(slot.repetition)),
        ("converted", Json::number(slot.converted)),
        ("logical", Json::number(slot.logical)),
        ("parameter_a", Json::number(slot.a)),
        ("parameter_b", Json::number(slot.b)),
        ("child_count", Json::number(slot.child_count)),
        ("type_length", Json::number(slot.type_length)),
        ("scale", Json::number(slot.scale)),
        ("precision", Json::number(slot.precision)),
        ("name_length", Json::number(slot.name.len())),
        name,
        name_hex,
    ])
}
