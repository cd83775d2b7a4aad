//! The numbers of `codes` and of the widths are those of `include/griffeljol.h`. Both are written by hand, and no prover sees
//! either.

use std::collections::BTreeMap;
use std::fs;

use griffeljol::Edition;

/// The named numbers of the header, without the prefix: `KIND_LIST` and so on.
fn header() -> BTreeMap<String, u64> {
    let text = fs::read_to_string("../include/griffeljol.h").expect("the header");
    text.lines()
        .filter_map(|line| line.strip_prefix("#define GRIFFELJOL_"))
        .filter_map(|line| {
            let mut words = line.split_whitespace();
            Some((words.next()?.to_owned(), words.next()?.parse().ok()?))
        })
        .collect()
}

/// The named numbers of `codes`, each behind its module's name.
fn codes() -> BTreeMap<String, u64> {
    let text = fs::read_to_string("src/codes.rs").expect("the codes");
    let mut module = String::new();
    let mut found = BTreeMap::new();
    for line in text.lines().map(str::trim) {
        if let Some((_, name)) = line.split_once("mod ").filter(|_| line.starts_with("pub")) {
            module = name.trim_end_matches(" {").to_uppercase();
        } else if let Some((name, number)) =
            line.strip_prefix("pub const ").and_then(|rest| rest.split_once(": u32 = "))
        {
            let number = number.trim_end_matches(';').parse().expect("a number");
            found.insert(format!("{module}_{name}"), number);
        }
    }
    found
}

#[test]
fn codes_are_those_of_the_header() {
    let groups = [
        "PHYSICAL",
        "REPETITION",
        "KIND",
        "CONVERTED",
        "LOGICAL",
        "DIFFERENCE",
        "ROLE",
        "UNIT",
        "EDGE_RULE",
        "CASE",
        "ORDER",
    ];
    let mut expected = header();
    expected.retain(|name, _| {
        groups.iter().any(|group| name.strip_prefix(group).is_some_and(|rest| rest.starts_with('_')))
    });
    assert_eq!(codes(), expected);
    assert!(!expected.is_empty());
}

#[test]
fn widths_are_those_of_the_header() {
    let header = header();
    assert_eq!(header["MAX_SHEET"], griffeljol::MAX_SHEET as u64);
    assert_eq!(header["MAX_VALUE"], griffeljol::MAX_VALUE as u64);
    assert_eq!(header["MAX_NODES"], griffeljol::MAX_NODES as u64);
    assert_eq!(header["ROW_WIDTH"], griffeljol::ROW_WIDTH as u64);
    assert_eq!(header["ENTRY_WIDTH"], griffeljol::ENTRY_WIDTH as u64);
    assert_eq!(header["ENTRY_SIDE"], griffeljol::SLOT_WIDTH as u64);
    assert_eq!(header["INT96_WIDTH"], griffeljol::INT96_WIDTH as u64);
    assert_eq!(header["INT96_EPOCH"].to_le_bytes()[..4], griffeljol::to_int96(0)[header["INT96_DAY"] as usize..]);
    assert_eq!(header["BOX_WIDTH"], griffeljol::BOX_WIDTH as u64);
    let bounds: [f64; 4] = griffeljol::BoundingBox { xmin: 0.0, xmax: 1.0, ymin: 2.0, ymax: 3.0 }.into();
    assert_eq!(["XMIN", "XMAX", "YMIN", "YMAX"].map(|bound| header[&format!("BOX_{bound}")] as f64), bounds);
    assert_eq!(header["ENTRY_SECOND"] + header["ENTRY_SIDE"], header["ENTRY_WIDTH"]);
    assert_eq!(header["ENTRY_FIRST"] + header["ENTRY_SIDE"], header["ENTRY_SECOND"]);
    let text = fs::read_to_string("../include/griffeljol.h").expect("the header");
    let entries_of_a_node = griffeljol::MAX_ENTRIES / griffeljol::MAX_NODES;
    assert!(text.contains(&format!("GRIFFELJOL_MAX_ENTRIES ({entries_of_a_node} * GRIFFELJOL_MAX_NODES)\n")));
}

#[test]
fn editions_are_those_of_the_header() {
    let mut header = header();
    header.retain(|name, _| name.starts_with("EDITION_"));
    let editions = [("EDITION_1", Edition::FIRST), ("EDITION_2", Edition::SECOND), ("EDITION_3", Edition::THIRD)];
    assert_eq!(header, editions.map(|(name, edition)| (name.to_owned(), u64::from(edition.number()))).into());
}

#[test]
fn meanings_are_those_of_the_header() {
    // Comments are joined into one line, so that a meaning that runs over two is found.
    let text = fs::read_to_string("../include/griffeljol.h").expect("the header");
    let text = text.split_whitespace().collect::<Vec<_>>().join(" ");
    for number in 1..=21 {
        let refusal = griffeljol::Refusal { number, place: 0 };
        let place = refusal.place_meaning().unwrap_or("0");
        let words = format!(" {number} /* {}: {place} */", refusal.meaning());
        assert!(text.contains(&words), "{words}");
    }
}
