//! Answers as JSON, a line for each.

use std::fmt::{self, Display};

use crate::failure::{AtFault, Refused};

/// A JSON value.
pub enum Json {
    Null,
    Truth(bool),
    /// A number, as it is spelled.
    Number(String),
    Text(String),
    List(Vec<Json>),
    Object(Vec<(&'static str, Json)>),
}

impl Json {
    /// A number.
    pub fn number(number: impl Display) -> Self {
        Json::Number(number.to_string())
    }

    /// A double as the shortest decimal that reads back as it. What JSON cannot spell is a text.
    pub fn double(double: f64) -> Self {
        let shortest = format!("{double:?}");
        if double.is_finite() {
            Json::Number(shortest)
        } else {
            Json::Text(shortest)
        }
    }

    /// A text.
    pub fn text(text: impl Into<String>) -> Self {
        Json::Text(text.into())
    }

    /// A text, or null.
    pub fn maybe(text: Option<impl Into<String>>) -> Self {
        text.map_or(Json::Null, Json::text)
    }

    /// The value with its line's end.
    pub fn line(&self) -> String {
        format!("{self}\n")
    }
}

impl Display for Json {
    fn fmt(&self, f: &mut fmt::Formatter<'_>) -> fmt::Result {
        match self {
            Json::Null => f.write_str("null"),
            Json::Truth(truth) => truth.fmt(f),
            Json::Number(number) => f.write_str(number),
            Json::Text(text) => write_text(f, text),
            Json::List(values) => {
                f.write_str("[")?;
                for (at, value) in values.iter().enumerate() {
                    write!(f, "{}{value}", if at == 0 { "" } else { ", " })?;
                }
                f.write_str("]")
            }
            Json::Object(members) => {
                f.write_str("{")?;
                for (at, (name, value)) in members.iter().enumerate() {
                    write!(f, "{}\"{name}\": {value}", if at == 0 { "" } else { ", " })?;
                }
                f.write_str("}")
            }
        }
    }
}

/// A text in quotes, with the escapes that RFC 8259 asks for.
fn write_text(f: &mut fmt::Formatter<'_>, text: &str) -> fmt::Result {
    f.write_str("\"")?;
    for c in text.chars() {
        match c {
            '"' | '\\' => write!(f, "\\{c}")?,
            '\0'..='\x1F' => write!(f, "\\u{:04x}", u32::from(c))?,
            _ => write!(f, "{c}")?,
        }
    }
    f.write_str("\"")
}

/// A refusal as members of an object, with the sheet at fault of two. The name of a file that is no UTF-8 is null.
pub fn refusal_members(Refused { refusal, meaning, place, at_fault }: &Refused) -> Vec<(&'static str, Json)> {
    let mut members = vec![
        ("refused", Json::number(refusal.number)),
        ("at", Json::number(refusal.place)),
        ("meaning", Json::text(*meaning)),
        ("place", Json::maybe(*place)),
    ];
    if let Some(AtFault { sheet, file }) = at_fault {
        members.extend([("sheet", Json::text(*sheet)), ("file", Json::maybe(file.to_str()))]);
    }
    members
}
