//! How names of nodes are shown, alone and in paths.

use std::collections::HashMap;

use griffeljol::Row;

use crate::json::Json;
use crate::{hex, layout};

/// What stands for the path of the root. It has a space, so no name is shown so.
const ROOT: &str = "the root";

/// A name on one line. Text of printable characters without a space stands as it is; any other name stands in quotes, with
/// bytes that are no UTF-8 as `\xNN`, and with Rust's escapes of characters that do not print by themselves.
pub fn shown(name: &[u8]) -> String {
    spelled(name, &[' '])
}

/// The paths of a sheet's nodes: the names from the root's children down, with points between them. Of siblings that share a
/// name the second has `[1]` behind it, the third `[2]`, and so on; so two nodes match where they have one path. A name with a
/// point or a bracket stands in quotes too.
pub fn paths(sheet: &[u8], rows: &[Row]) -> Vec<String> {
    let mut paths = vec![ROOT.to_owned()];
    let mut siblings: HashMap<(u32, &[u8]), usize> = HashMap::new();
    for (node, row) in rows.iter().enumerate().skip(1) {
        let name = layout::name(sheet, node);
        let mut path = match row.parent {
            0 => String::new(),
            parent => format!("{}.", paths[parent as usize]),
        };
        path += &spelled(name, &[' ', '.', '[', ']']);
        let earlier = siblings.entry((row.parent, name)).or_default();
        if *earlier > 0 {
            path += &format!("[{earlier}]");
        }
        *earlier += 1;
        paths.push(path);
    }
    paths
}

/// A name as members of an object. One that is no UTF-8 is null, and its bytes stand in hexadecimal.
pub fn members(name: &[u8]) -> [(&'static str, Json); 2] {
    [("name", Json::maybe(std::str::from_utf8(name).ok())), ("name_hex", Json::text(hex::shown(name)))]
}

/// A name on one line, in quotes where it has one of these marks or something is escaped.
fn spelled(name: &[u8], marks: &[char]) -> String {
    let mut text = String::new();
    let mut plain = true;
    for chunk in name.utf8_chunks() {
        for c in chunk.valid().chars() {
            plain &= !marks.contains(&c);
            match c {
                '\'' => text.push(c),
                _ => text.extend(c.escape_debug()),
            }
        }
        for byte in chunk.invalid() {
            text += &format!("\\x{byte:02X}");
        }
    }
    // Whatever was escaped starts with a backslash.
    if plain && !text.contains('\\') {
        text
    } else {
        format!("\"{text}\"")
    }
}
