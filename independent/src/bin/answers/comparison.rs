//! Pairs of sheets to compare: every field of a slot, names that siblings share, nodes that one sheet alone has, nodes that moved, random
//! trees, outputs of every length about the list's, and refusals.

use std::fmt::Write;

use independent::codes::physical::{BYTE_ARRAY, FIXED, INT64, INT96};
use independent::codes::repetition::{OPTIONAL, REPEATED};
use independent::codes::{converted, logical};
use independent::compare::{differences, Entry, ENTRY};
use independent::edition::FIRST;
use independent::{compare, rewrite};

use crate::bytes::{put, put_size, Reader};
use crate::editions::{in_each, title_in, KNOWN_AND_OTHERS};
use crate::nodes::{
    changed, example, group, int32, key, key_value, layer, leaf, list, map, root, sheet_of, sheet_of_nodes, Node,
};
use crate::random::Random;
use crate::random_trees::random_nodes;

/// Two sheets to compare into so many lent bytes, by an edition.
#[derive(Clone)]
struct Vector {
    edition: u32,
    title: String,
    first: Vec<u8>,
    second: Vec<u8>,
    lent: usize,
}

#[derive(Default)]
struct Vectors(Vec<Vector>);

impl Vectors {
    /// Two sheets to compare into so many lent bytes, by the first edition.
    fn lend(&mut self, title: impl Into<String>, first: &[u8], second: &[u8], lent: usize) {
        let (first, second) = (first.to_vec(), second.to_vec());
        self.0.push(Vector { edition: FIRST, title: title.into(), first, second, lent });
    }

    /// Two sheets to compare, with a few more bytes lent than the list needs.
    fn sheets(&mut self, title: impl Into<String>, first: &[u8], second: &[u8]) {
        let entries = differences(FIRST, first, second).map_or(0, |list| list.len());
        self.lend(title, first, second, ENTRY * entries + 3);
    }

    /// Two trees to compare, both ways round.
    fn trees(&mut self, title: &str, first: Node, second: Node) {
        let (first, second) = (sheet_of(&first), sheet_of(&second));
        self.sheets(title, &first, &second);
        self.sheets(format!("{title}, turned"), &second, &first);
    }

    /// Two roots with fields to compare, both ways round.
    fn fields<const M: usize, const N: usize>(&mut self, title: &str, first: [Node; M], second: [Node; N]) {
        self.trees(title, root(first), root(second));
    }
}

/// The vectors as they are stored: how many there are; for each its edition, the lengths of its title and of the two sheets, the number of
/// lent bytes, the title and the sheets.
pub fn input() -> Vec<u8> {
    let mut vectors = Vectors::default();
    for part in [equal, slot_fields, names, shared_names, unmatched, moved, nested, random_trees, outputs, refusals] {
        part(&mut vectors);
    }
    vectors.0.extend(of_any_edition());
    let mut bytes = Vec::new();
    put_size(&mut bytes, vectors.0.len());
    for Vector { edition, title, first, second, lent } in &vectors.0 {
        put(&mut bytes, *edition);
        for length in [title.len(), first.len(), second.len(), *lent] {
            put_size(&mut bytes, length);
        }
        bytes.extend(title.bytes());
        bytes.extend(first);
        bytes.extend(second);
    }
    bytes
}

pub fn answers(input: &[u8]) -> Vec<u8> {
    let mut lines = String::new();
    let mut reader = Reader::new(input);
    for _ in 0..reader.u32() {
        let edition = reader.u32();
        let (title, first, second, lent) = (reader.size(), reader.size(), reader.size(), reader.size());
        let title = reader.text(title);
        let (first, second) = (reader.take(first), reader.take(second));
        writeln!(lines, "{title}: {}", compared(edition, first, second, lent)).unwrap();
    }
    lines.into()
}

/// What the lent bytes hold before.
const MARK: u8 = 0xA5;

/// The answer to two sheets, whether the lent bytes beyond the list were kept, and a line for each entry.
fn compared(edition: u32, first: &[u8], second: &[u8], lent: usize) -> String {
    let mut out = vec![MARK; lent];
    let (answer, written) = match compare(edition, first, second, &mut out) {
        Ok(count) => (format!("entries {count}"), ENTRY * count as usize),
        Err(refusal) => (refusal.to_string(), 0),
    };
    let (written, beyond) = out.split_at(written);
    let kept = if beyond.iter().all(|&byte| byte == MARK) { "kept" } else { "not kept" };
    let lines = written.chunks_exact(ENTRY).map(|entry| {
        let Entry { code, node, first, second } = Entry::parse(entry.try_into().expect("a whole entry"));
        format!("\n{code} {} {node} {} {}", entry[1], content_text(&first), content_text(&second))
    });
    format!("{answer} {kept}{}", lines.collect::<String>())
}

/// The content of an entry, two digits for each byte, without the zeros at its end; nothing but zeros is a dash.
fn content_text(content: &[u8]) -> String {
    let length = content.iter().rposition(|&byte| byte != 0).map_or(0, |last| last + 1);
    match length {
        0 => "-".to_string(),
        _ => content[..length].iter().map(|byte| format!("{byte:02x}")).collect(),
    }
}

fn named(name: &str) -> Node {
    int32().named(name)
}

fn equal(vectors: &mut Vectors) {
    let equal =
        |vectors: &mut Vectors, title: &str, tree: Node| vectors.sheets(title, &sheet_of(&tree), &sheet_of(&tree));
    equal(vectors, "two roots alone", root([]));
    equal(vectors, "example twice", example());
    equal(vectors, "siblings of one name twice", root([named("a"), group([named("a"), named("a")]), named("a")]));
}

/// Each field of a slot alone, and several at once.
fn slot_fields(vectors: &mut Vectors) {
    let number = |a, b| int32().logical(logical::INTEGER).parameters(a, b);
    let decimal = |precision, scale| leaf(BYTE_ARRAY).logical(logical::DECIMAL).digits(precision, scale);
    vectors.fields("physical", [int32()], [leaf(INT64)]);
    vectors.fields("repetition", [int32()], [int32().repetition(OPTIONAL)]);
    vectors.fields("converted", [int32()], [int32().converted(converted::DATE)]);
    vectors.fields("logical", [int32()], [int32().logical(logical::DATE)]);
    vectors.fields("parameter a", [number(8, 0)], [number(32, 0)]);
    vectors.fields("parameter b", [number(8, 0)], [number(8, 1)]);
    vectors.fields("type length", [leaf(FIXED).length(1)], [leaf(FIXED).length(0x0403_0201)]);
    vectors.fields("scale", [decimal(1000, 1)], [decimal(1000, 256)]);
    vectors.fields("precision", [decimal(1000, 1)], [decimal(i32::MAX, 1)]);
    let timestamp = leaf(INT64).converted(converted::TIMESTAMP_MICROS).logical(logical::TIMESTAMP).parameters(2, 1);
    let fixed = leaf(FIXED).logical(logical::DECIMAL).digits(9, 2).repetition(REPEATED);
    vectors.fields("several fields and places", [timestamp, named("w")], [named("w"), fixed]);
    vectors.fields("a leaf and a group", [named("g")], [group([named("a"), named("b")])]);
}

fn names(vectors: &mut Vectors) {
    let roots = |one: &[u8], other: &[u8]| [one, other].map(|name| root([int32()]).named(name));
    for (title, [one, other]) in [
        ("another name of the root", roots(b"r", b"s")),
        ("a longer name of the root", roots(b"r", b"root")),
        ("a zero behind the root's name", roots(b"r", b"r\0")),
        ("48 bytes that differ in the last", roots(&[b'x'; 48], &[&[b'x'; 47][..], b"y"].concat())),
    ] {
        vectors.trees(title, one, other);
    }
    vectors.fields("another name of a field", [named("a")], [named("b")]);
    vectors.fields("a zero behind a field's name", [named("a")], [named("a\0")]);
}

/// The fields that share a name have other contents, so that it is seen which ones match.
fn shared_names(vectors: &mut Vectors) {
    let (one, two) = (named("a"), leaf(INT64).named("a"));
    vectors.fields("one and two of a name", [one.clone()], [two.clone(), one.clone()]);
    vectors.fields("two of a name exchanged", [one.clone(), two.clone()], [two.clone(), one.clone()]);
    let first = [one.clone(), named("b"), two.clone(), named("c"), one.clone()];
    vectors.fields("three and two of a name among others", first, [named("c"), two, one, named("b"), named("b")]);
    let groups = |fields: [[Node; 1]; 2]| fields.map(group);
    vectors.fields(
        "groups of one name with other fields",
        groups([[named("a")], [named("b")]]),
        groups([[named("b")], [named("a")]]),
    );
}

fn unmatched(vectors: &mut Vectors) {
    let subtree = || group([group([named("a")]).named("h"), named("b")]);
    vectors.fields("no fields, and some", [], [named("a"), subtree()]);
    vectors.fields("a subtree taken out", [named("x"), subtree(), named("y")], [named("x"), named("y")]);
    vectors.fields("nothing of one name", [subtree(), named("x")], [named("y"), subtree().named("z")]);
    let parent = |fields| group(fields).named("p");
    vectors.fields(
        "a subtree under another parent",
        [subtree(), parent(vec![named("x")])],
        [parent(vec![subtree(), named("x")])],
    );
}

fn moved(vectors: &mut Vectors) {
    vectors.fields("two exchanged", [named("a"), named("b")], [named("b"), named("a")]);
    vectors.fields("places among all siblings", [named("a"), named("b"), named("x")], [named("x"), named("c")]);
    // Numbers above 255, of nodes and of places.
    let in_order: Vec<Node> = (0..260).map(|at| named(&format!("f{at}"))).collect();
    let (mut last_first, mut turned) = (in_order.clone(), in_order.clone());
    last_first.rotate_right(1);
    turned.reverse();
    let [in_order, last_first, turned] = [in_order, last_first, turned].map(|fields| sheet_of(&root(fields)));
    vectors.sheets("the last of 260 first", &in_order, &last_first);
    vectors.sheets("260 in reverse", &in_order, &turned);
}

/// Lists and maps: a sheet beside its rewriting, and beside others.
fn nested(vectors: &mut Vectors) {
    let fields = [key(), int32().named("value").repetition(OPTIONAL)];
    let tree = root([list([layer([int32()])]), map([key_value(fields.clone()).converted(converted::MAP_KEY_VALUE)])]);
    let sheet = sheet_of(&tree);
    let mut rewritten = vec![0; sheet.len()];
    rewrite(FIRST, &sheet, &mut rewritten, 0).expect("a lawful sheet");
    vectors.sheets("a sheet and its rewriting", &sheet, &rewritten);
    vectors.fields(
        "a list and a map of one name",
        [list([layer([int32()])])],
        [map([key_value(fields)]).named("parts")],
    );
}

fn random_trees(vectors: &mut Vectors) {
    let mut random = Random::new(1);
    for n in 0..12 {
        let [first, second] = [(); 2].map(|()| {
            let size = random.pick(&[2, 4, 6, 10, 15]);
            sheet_of_nodes(&random_nodes(&mut random, size).iter().collect::<Vec<_>>())
        });
        vectors.sheets(format!("random trees {n}"), &first, &second);
    }
}

fn outputs(vectors: &mut Vectors) {
    let (first, second) = (sheet_of(&root([named("a"), named("b")])), sheet_of(&root([named("b"), named("a")])));
    for lent in [0, 1, ENTRY - 1, ENTRY, 2 * ENTRY - 1, 2 * ENTRY, 2 * ENTRY + 1, 3 * ENTRY] {
        vectors.lend(format!("two entries, {lent} lent"), &first, &second, lent);
    }
    vectors.lend("no entries, nothing lent", &first, &first, 0);
}

/// Each of some refusals in the first sheet, in the second and in both, with too little lent.
fn refusals(vectors: &mut Vectors) {
    let right = sheet_of(&example());
    let wrong = [
        ("length", right[..511].to_vec()),
        ("check", [&right[..511], &[0xFF]].concat()),
        ("header", changed(&right, 3, &[2])),
        ("slot", changed(&right, 6, &[9])),
        ("a node missing", sheet_of(&root([int32()]).claiming(2))),
        ("shape", sheet_of(&root([int32().length(1)]))),
        ("LIST", sheet_of(&root([list([int32()])]))),
    ];
    for (at, (title, sheet)) in wrong.iter().enumerate() {
        vectors.lend(format!("{title} in the first"), sheet, &right, 0);
        vectors.lend(format!("{title} in the second"), &right, sheet, 0);
        let (other_title, other) = &wrong[(at + 1) % wrong.len()];
        vectors.lend(format!("{title} in the first, {other_title} in the second"), sheet, other, ENTRY);
    }
}

/// What unknown editions are asked too: lists, no list, a scale that equals its precision, an INT96 leaf or one of
/// GEOMETRY or GEOGRAPHY in either sheet, and refusals.
fn of_any_edition() -> Vec<Vector> {
    let mut vectors = Vectors::default();
    let plain = sheet_of(&root([int32()]));
    let fraction = sheet_of(&root([int32().logical(logical::DECIMAL).digits(3, 3)]));
    vectors.sheets("equal", &plain, &plain);
    vectors.sheets("another name of the root", &plain, &sheet_of(&root([int32()]).named("s")));
    vectors.lend("scale as precision in the second", &plain, &fraction, 3 * ENTRY);
    vectors.lend("scale as precision in the first", &fraction, &plain, 3 * ENTRY);
    vectors.lend("scale as precision in both", &fraction, &fraction, 0);
    vectors.lend("scale as precision, too little lent", &fraction, &plain, 3 * ENTRY - 1);
    let int96 = sheet_of(&root([leaf(INT96)]));
    vectors.lend("INT96 in the second", &plain, &int96, 3 * ENTRY);
    vectors.lend("INT96 in the first", &int96, &plain, 3 * ENTRY);
    vectors.lend("INT96 in both", &int96, &int96, 0);
    vectors.lend("INT96 in the first, too little lent", &int96, &plain, 0);
    vectors.lend("INT96 in the first, scale as precision in the second", &int96, &fraction, 9 * ENTRY);
    vectors.lend("scale as precision in the first, INT96 in the second", &fraction, &int96, 9 * ENTRY);
    vectors.lend("INT96 in the first, no bytes in the second", &int96, &[], 0);
    vectors.lend("no bytes in the first, INT96 in the second", &[], &int96, 0);
    let geospatial = |code, a| sheet_of(&root([leaf(BYTE_ARRAY).logical(code).parameters(a, 0)]));
    let (geometry, geography) = (geospatial(logical::GEOMETRY, 0), geospatial(logical::GEOGRAPHY, 4));
    let text = geospatial(logical::STRING, 0);
    vectors.lend("GEOMETRY in the second", &text, &geometry, 3 * ENTRY);
    vectors.lend("GEOMETRY in the first", &geometry, &text, 3 * ENTRY);
    vectors.lend("GEOMETRY in both", &geometry, &geometry, 0);
    vectors.lend("GEOMETRY in the first, GEOGRAPHY in the second", &geometry, &geography, 3 * ENTRY);
    vectors.lend("two edge rules", &geography, &geospatial(logical::GEOGRAPHY, 0), ENTRY);
    vectors.lend("GEOGRAPHY in the first, too little lent", &geography, &text, 0);
    vectors.lend("GEOGRAPHY in the first, INT96 in the second", &geography, &int96, 9 * ENTRY);
    vectors.lend("INT96 in the first, GEOGRAPHY in the second", &int96, &geography, 9 * ENTRY);
    vectors.lend(
        "GEOGRAPHY in the first, no such edge rule in the second",
        &geography,
        &geospatial(logical::GEOGRAPHY, 5),
        0,
    );
    vectors.lend("no bytes twice", &[], &[], 0);
    vectors.lend("no bytes in the second", &plain, &[], 0);
    in_each(&KNOWN_AND_OTHERS, &vectors.0, |vector, edition| Vector {
        edition,
        title: title_in(edition, &vector.title),
        ..vector.clone()
    })
}
