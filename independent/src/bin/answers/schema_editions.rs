//! Sheets by edition: those of `schema` that the known editions answer otherwise, decimals whose scale equals their precision, INT96
//! leaves, leaves of GEOMETRY and GEOGRAPHY, and what unknown editions are asked too.

use std::borrow::Cow;

use independent::annotation::EdgeRule;
use independent::codes::physical::{BOOLEAN, BYTE_ARRAY, FIXED, GROUP, INT32, INT64, INT96};
use independent::codes::repetition::{NONE, OPTIONAL, REPEATED};
use independent::codes::{converted, logical};
use independent::decimal::greatest_precision;
use independent::sheet::BLOCK;

use crate::editions::{all_alike, in_each, title_in, Editions, KNOWN, KNOWN_AND_OTHERS};
use crate::nodes::{changed, example, group, int32, key, key_value, layer, leaf, list, map, root, sheet_of, Node};
use crate::random_trees::logical_types;
use crate::schema::{self, Rewrite, Vector, Vectors};

/// Every question in its edition, and the sheets rewritten too.
pub fn input() -> Vec<u8> {
    let mut vectors = asked_in(&KNOWN, otherwise());
    vectors.extend(asked_in(&KNOWN, decimals()));
    vectors.extend(asked_in(&KNOWN, int96_leaves()));
    vectors.extend(asked_in(&KNOWN, geospatial_leaves()));
    vectors.extend(asked_in(&KNOWN_AND_OTHERS, of_any_edition()));
    let rewrites: Vec<Rewrite> = vectors.iter().enumerate().map(rewrite).collect();
    schema::packed(Editions::BeforeEach, &vectors, &rewrites)
}

pub fn answers(input: &[u8]) -> Vec<u8> {
    schema::answers_in(Editions::BeforeEach, input)
}

fn asked_in(editions: &[u32], vectors: Vectors) -> Vec<Vector> {
    in_each(editions, &vectors.0, |vector, edition| Vector {
        edition,
        title: title_in(edition, &vector.title),
        ..vector.clone()
    })
}

/// The sheet of a vector to rewrite, with marked bytes before and behind, or with a byte too few.
fn rewrite((at, vector): (usize, &Vector)) -> Rewrite<'_> {
    let Vector { edition, title, sheet, lent } = vector;
    let lent = if *lent == 0 { sheet.len().saturating_sub(1) } else { sheet.len() + 2 };
    Rewrite { edition: *edition, title: title.clone(), sheet: Cow::Borrowed(sheet), lent, start: at as u32 % 3 }
}

/// Those of `schema` of a few blocks that not all known editions answer alike.
fn otherwise() -> Vectors {
    const MOST_BYTES: usize = 4 * BLOCK;
    let mut vectors = schema::vectors();
    vectors.0.retain(|Vector { sheet, lent, .. }| {
        sheet.len() <= MOST_BYTES && !all_alike(|edition| schema::resolved(edition, sheet, *lent))
    });
    vectors
}

/// Scale equal to precision at the least and the greatest precision of each physical type, and no precision, by either annotation and by
/// both; other digits; and such a leaf before, behind and under other faults.
fn decimals() -> Vectors {
    let mut vectors = Vectors::default();
    let fixed = |length: usize| {
        let most = greatest_precision(length).expect("a length of the table");
        (format!("FIXED {length}"), leaf(FIXED).length(length as i32), most as i32)
    };
    let others = [("INT32", INT32, 9), ("INT64", INT64, 18), ("BYTE_ARRAY", BYTE_ARRAY, i32::MAX)]
        .map(|(name, physical, most)| (name.to_string(), leaf(physical), most));
    for (name, plain, most) in others.into_iter().chain([1, 2, 16, 256].map(fixed)) {
        let by_converted = plain.clone().converted(converted::DECIMAL);
        let by_logical = plain.logical(logical::DECIMAL);
        let by_both = by_logical.clone().converted(converted::DECIMAL);
        for (form, node) in [("converted", by_converted), ("logical", by_logical), ("both", by_both)] {
            for (precision, scale) in [(0, 0), (1, 1), (most, most)] {
                let title = format!("DECIMAL({precision}, {scale}) on {name} by {form}");
                vectors.field(title, node.clone().digits(precision, scale));
            }
        }
    }
    for (precision, scale) in [(2, 1), (2, 3), (-1, -1), (0, -1), (10, 10), (i32::MIN, i32::MIN), (i32::MAX, i32::MIN)]
    {
        vectors.field(format!("DECIMAL({precision}, {scale})"), decimal(precision, scale));
    }
    vectors.fields("the second of three", [decimal(3, 2), decimal(3, 3).repetition(OPTIONAL), decimal(3, 4)]);
    vectors.fields("two of three", [decimal(4, 4), decimal(4, 3), decimal(5, 5)]);
    vectors.fields("11, then 12", [decimal(3, 3), list([int32()])]);
    vectors.fields("13, then 11", [map([int32()]), decimal(3, 3)]);
    vectors.field("in a group of a group", group([group([decimal(9, 9)])]));
    vectors.field("9 and scale as precision", decimal(3, 3).converted(converted::UTF8));
    vectors.field("10 and scale as precision", leaf(BOOLEAN).logical(logical::DECIMAL).digits(3, 3));
    let sheet = sheet_of(&root([decimal(3, 3)]));
    vectors.lend("scale as precision, too little lent", sheet.clone(), 21);
    vectors.lend("scale as precision, nothing lent", sheet, 0);
    vectors
}

fn decimal(precision: i32, scale: i32) -> Node {
    int32().logical(logical::DECIMAL).digits(precision, scale)
}

fn int96() -> Node {
    leaf(INT96)
}

/// INT96 leaves: of each repetition, with each annotation, with another fault of their own, beside and between other faults, in lists, maps
/// and groups, and several of them.
fn int96_leaves() -> Vectors {
    let mut vectors = Vectors::default();
    vectors.field("INT96", int96());
    vectors.field("INT96, optional", int96().repetition(OPTIONAL));
    vectors.field("INT96, repeated", int96().repetition(REPEATED));
    for code in 0..=converted::INTERVAL {
        let digits = if code == converted::DECIMAL { (4, 1) } else { (0, 0) };
        vectors.field(format!("INT96 with converted {code}"), int96().converted(code).digits(digits.0, digits.1));
    }
    for logical in logical_types() {
        let (code, (a, b)) = (logical.code(), logical.parameters());
        let precision = if code == logical::DECIMAL { 4 } else { 0 };
        let node = int96().logical(code).parameters(a, b).digits(precision, precision);
        vectors.field(format!("INT96 with logical {code} ({a}, {b})"), node);
    }
    let disagreeing = int96().converted(converted::UTF8).logical(logical::UNKNOWN);
    for (title, node) in [
        ("a type length", int96().length(12)),
        ("a scale", int96().digits(0, 1)),
        ("no repetition", int96().repetition(NONE)),
        ("a child", int96().having([int32()])),
        ("a child and UNKNOWN", int96().logical(logical::UNKNOWN).having([int32()])),
        ("UTF8 beside UNKNOWN", disagreeing.clone()),
        ("UTF8 beside ENUM", int96().converted(converted::UTF8).logical(logical::ENUM)),
        ("a type length, and UTF8 beside UNKNOWN", disagreeing.clone().length(12)),
        ("a parameter", int96().parameters(1, 0)),
        ("UNKNOWN with a parameter", int96().logical(logical::UNKNOWN).parameters(0, 1)),
    ] {
        vectors.field(format!("INT96 with {title}"), node.clone());
        vectors.fields(format!("INT96 with {title}, then INT96"), [node.clone(), int96()]);
        vectors.fields(format!("INT96, then INT96 with {title}"), [int96(), node]);
    }
    let faults = [
        ("8", int32().length(1)),
        ("9", int32().converted(converted::UTF8).logical(logical::DATE)),
        ("10", int32().logical(logical::STRING)),
        ("11", decimal(3, 4)),
        ("scale as precision", decimal(3, 3)),
        ("12", list([int32()])),
        ("13", map([int32()])),
    ];
    for (title, fault) in faults {
        vectors.fields(format!("INT96, then {title}"), [int96(), fault.clone()]);
        vectors.fields(format!("{title}, then INT96"), [fault, int96()]);
    }
    vectors.fields("INT96 three times", [int96(), int96().logical(logical::UNKNOWN), int96()]);
    vectors.field("INT96 in a group of a group", group([group([int96()])]));
    vectors.field("INT96 as a list's layer", list([int96().repetition(REPEATED)]));
    vectors.field("INT96 as a list's element", list([layer([int96().repetition(OPTIONAL)])]));
    vectors.field("INT96 in a list's element", list([layer([int32(), int96()])]));
    vectors.field("a list of two layers, INT96 in one", list([layer([int96()]), layer([int32()])]));
    let value = || int32().named("value").repetition(OPTIONAL);
    vectors.field("INT96 as a map's key", map([key_value([int96().named("key"), value()])]));
    vectors.field("INT96 as a map's value", map([key_value([key(), int96().named("value")])]));
    vectors.field("INT96 as a map's value of MAP_KEY_VALUE", {
        map([key_value([key(), int96()]).converted(converted::MAP_KEY_VALUE)])
    });
    vectors.field("INT96 as an optional key", map([key_value([int96().repetition(OPTIONAL), value()])]));
    let sheet = sheet_of(&root([int96()]));
    vectors.lend("INT96, too little lent", sheet.clone(), 21);
    vectors.lend("INT96, nothing lent", sheet, 0);
    vectors.sheet("a node missing behind INT96", sheet_of(&root([int96()]).claiming(2)));
    vectors.sheet("a node left over behind INT96", sheet_of(&root([int96(), int32()]).claiming(1)));
    vectors
}

fn geospatial(code: u8) -> Node {
    leaf(BYTE_ARRAY).logical(code)
}

/// Leaves of GEOMETRY and GEOGRAPHY: of each repetition, with each edge rule and with parameters that neither has, on
/// each physical type, beside each converted type, with another fault of their own, beside other faults, in lists, maps
/// and groups; and codes beside theirs.
fn geospatial_leaves() -> Vectors {
    let mut vectors = Vectors::default();
    for code in [9, 15, 16, 17, 18, 19, 20, 254, 255] {
        vectors.field(format!("logical {code}"), geospatial(code));
    }
    let both = [("GEOMETRY", logical::GEOMETRY), ("GEOGRAPHY", logical::GEOGRAPHY)];
    for (name, code) in both {
        vectors.field(format!("{name}, optional"), geospatial(code).repetition(OPTIONAL));
        vectors.field(format!("{name}, repeated"), geospatial(code).repetition(REPEATED));
        for (a, b) in [(1, 0), (2, 0), (3, 0), (4, 0), (5, 0), (255, 0), (0, 1), (4, 1), (5, 1), (0, 255)] {
            vectors.field(format!("{name} ({a}, {b})"), geospatial(code).parameters(a, b));
        }
        for physical in (BOOLEAN..=FIXED).filter(|&physical| physical != BYTE_ARRAY) {
            vectors.field(format!("{name} on physical {physical}"), leaf(physical).logical(code));
        }
        vectors.field(format!("{name} on a group"), group([int32()]).logical(code));
        vectors.field(format!("{name} on a list"), list([layer([int32()])]).logical(code));
        vectors.field(format!("{name} (5, 0) on INT32"), int32().logical(code).parameters(5, 0));
        for converted in 0..=converted::INTERVAL {
            let digits = if converted == converted::DECIMAL { (4, 1) } else { (0, 0) };
            let node = geospatial(code).converted(converted).digits(digits.0, digits.1);
            vectors.field(format!("{name} beside converted {converted}"), node);
        }
        for (title, node) in [
            ("a type length", geospatial(code).length(21)),
            ("a precision", geospatial(code).digits(4, 0)),
            ("no repetition", geospatial(code).repetition(NONE)),
            ("a child", geospatial(code).having([int32()])),
            ("UTF8 and a parameter", geospatial(code).converted(converted::UTF8).parameters(5, 0)),
            ("UTF8 and INT32", int32().logical(code).converted(converted::UTF8)),
            ("UTF8 and a type length", geospatial(code).converted(converted::UTF8).length(21)),
            ("a precision and DECIMAL", geospatial(code).converted(converted::DECIMAL).digits(4, 4)),
        ] {
            vectors.field(format!("{name} with {title}"), node);
        }
    }
    let terminal = || geospatial(logical::GEOGRAPHY).parameters(4, 0);
    let faults = [
        ("8", int32().length(1)),
        ("9", int32().converted(converted::UTF8).logical(logical::DATE)),
        ("10", int32().logical(logical::STRING)),
        ("INT96", int96()),
        ("scale as precision", decimal(3, 3)),
        ("12", list([int32()])),
        ("13", map([int32()])),
        ("logical 16", geospatial(16)),
        ("GEOMETRY (1, 0)", geospatial(logical::GEOMETRY).parameters(1, 0)),
    ];
    for (title, fault) in faults {
        vectors.fields(format!("GEOGRAPHY, then {title}"), [terminal(), fault.clone()]);
        vectors.fields(format!("{title}, then GEOGRAPHY"), [fault, terminal()]);
    }
    let all = EdgeRule::ALL.map(|edge_rule| geospatial(logical::GEOGRAPHY).parameters(edge_rule as u8, 0));
    vectors.fields("every edge rule", all);
    vectors.field("GEOGRAPHY in a group of a group", group([group([terminal()])]));
    vectors.field("GEOGRAPHY as a list's layer", list([terminal().repetition(REPEATED)]));
    vectors.field("GEOGRAPHY as a list's element", list([layer([terminal().repetition(OPTIONAL)])]));
    vectors.field("GEOGRAPHY as a map's key", map([key_value([terminal().named("key"), int32().named("value")])]));
    vectors.field("GEOGRAPHY as a map's value", map([key_value([key(), terminal().named("value")])]));
    vectors.sheet("GEOMETRY on the root", sheet_of(&root([int32()]).logical(logical::GEOMETRY)));
    vectors.sheet("GEOMETRY on a root alone", sheet_of(&root([]).logical(logical::GEOMETRY)));
    let leafless = Node { physical: GROUP, ..geospatial(logical::GEOMETRY) };
    vectors.field("GEOMETRY on a group without fields", leafless);
    let sheet = sheet_of(&root([terminal()]));
    vectors.lend("GEOGRAPHY, too little lent", sheet.clone(), 21);
    vectors.lend("GEOGRAPHY, nothing lent", sheet.clone(), 0);
    vectors.sheet("GEOGRAPHY and a wrong check", [&sheet[..511], &[0xFF]].concat());
    vectors.sheet("a node missing behind GEOGRAPHY", sheet_of(&root([terminal()]).claiming(2)));
    vectors.sheet("a node left over behind GEOGRAPHY", sheet_of(&root([terminal(), int32()]).claiming(1)));
    vectors
}

/// A lawful sheet, one that the first edition refuses, one that the third does, one that only that takes, and one of
/// each refusal that comes early or last.
fn of_any_edition() -> Vectors {
    let mut vectors = Vectors::default();
    let sample = sheet_of(&example());
    vectors.sheet("example", sample.clone());
    vectors.lend("example, nothing lent", sample.clone(), 0);
    vectors.sheet("scale as precision", sheet_of(&root([decimal(3, 3)])));
    vectors.sheet("INT96", sheet_of(&root([int96()])));
    vectors.sheet("GEOMETRY", sheet_of(&root([geospatial(logical::GEOMETRY)])));
    vectors.sheet("no bytes", Vec::new());
    vectors.sheet("511 bytes", sample[..511].to_vec());
    vectors.sheet("zeros", vec![0; 512]);
    vectors.sheet("check", [&sample[..511], &[0xFF]].concat());
    vectors.sheet("header", changed(&sample, 3, &[2]));
    vectors.sheet("slot", changed(&sample, 6, &[9]));
    vectors.sheet("a node missing", sheet_of(&root([int32()]).claiming(2)));
    vectors.sheet("shape", sheet_of(&root([int32().length(1)])));
    vectors
}
