//! Sheets to resolve and sheets to rewrite: every rule on both sides of its bound, faults beside one another, and random
//! trees, whole and harmed.

use std::borrow::Cow;
use std::collections::BTreeSet;
use std::fmt::Write;

use independent::annotation::Logical;
use independent::codes::physical::{BOOLEAN, BYTE_ARRAY, DOUBLE, FIXED, INT32, INT64};
use independent::codes::repetition::{NONE, OPTIONAL, REPEATED, REQUIRED};
use independent::codes::{converted, logical};
use independent::edition::FIRST;
use independent::sheet::{BLOCK, MAX_NODES, SLOT};
use independent::{resolve, rewrite, ROW_WIDTH};

use crate::bytes::{put, put_size, Reader};
use crate::editions::Editions;
use crate::nodes::{
    changed, entry, example, group, int32, key, key_value, layer, leaf, list, map, root, sheet_of, sheet_of_nodes, Node,
};
use crate::random::Random;
use crate::random_trees::{damage, logical_types, physical_types, random_nodes};
use crate::schema_programs::rows_text;

const CONVERTED: [&str; 22] = [
    "UTF8",
    "MAP",
    "MAP_KEY_VALUE",
    "LIST",
    "ENUM",
    "DECIMAL",
    "DATE",
    "TIME_MILLIS",
    "TIME_MICROS",
    "TIMESTAMP_MILLIS",
    "TIMESTAMP_MICROS",
    "UINT_8",
    "UINT_16",
    "UINT_32",
    "UINT_64",
    "INT_8",
    "INT_16",
    "INT_32",
    "INT_64",
    "JSON",
    "BSON",
    "INTERVAL",
];
const LOGICAL: [&str; 15] = [
    "None",
    "STRING",
    "MAP",
    "LIST",
    "ENUM",
    "DECIMAL",
    "DATE",
    "TIME",
    "TIMESTAMP",
    "",
    "INTEGER",
    "UNKNOWN",
    "JSON",
    "BSON",
    "UUID",
];

/// The most numbers that are lent.
const MOST_LENT: usize = 9984;

/// A sheet to resolve into so many lent numbers, by an edition.
#[derive(Clone)]
pub struct Vector {
    pub edition: u32,
    pub title: String,
    pub sheet: Vec<u8>,
    pub lent: usize,
}

#[derive(Default)]
pub struct Vectors(pub Vec<Vector>);

impl Vectors {
    /// A sheet to resolve into so many lent numbers, by the first edition.
    pub fn lend(&mut self, title: impl Into<String>, sheet: Vec<u8>, lent: usize) {
        self.0.push(Vector { edition: FIRST, title: title.into(), sheet, lent: lent.min(MOST_LENT) });
    }

    /// A sheet to resolve, with a few more numbers lent than its rows need.
    pub fn sheet(&mut self, title: impl Into<String>, sheet: Vec<u8>) {
        let lent = match sheet[..] {
            [_, _, _, _, low, high, ..] if sheet.len() <= 65536 => {
                ROW_WIDTH * usize::from(u16::from_le_bytes([low, high])) + 4
            }
            _ => 40,
        };
        self.lend(title, sheet, lent);
    }

    fn tree(&mut self, title: impl Into<String>, top: Node) {
        self.sheet(title, sheet_of(&top));
    }

    /// Fields of a root, beside a plain leaf on either side.
    pub fn fields(&mut self, title: impl Into<String>, fields: impl IntoIterator<Item = Node>) {
        let mut all = vec![int32().named("before")];
        all.extend(fields);
        all.push(int32().named("after"));
        self.tree(title, root(all));
    }

    pub fn field(&mut self, title: impl Into<String>, field: Node) {
        self.fields(title, [field]);
    }
}

pub fn vectors() -> Vectors {
    let mut vectors = Vectors::default();
    for part in [
        outputs,
        sheets,
        places,
        depths,
        levels,
        shapes,
        annotated,
        disagreements,
        misplaced,
        digits,
        list_rules,
        list_faults,
        one_repeated_field,
        map_rules,
        map_faults,
        key_values,
        two_faults,
        random_trees,
    ] {
        part(&mut vectors);
    }
    vectors
}

pub fn input() -> Vec<u8> {
    let vectors = vectors().0;
    packed(Editions::First, &vectors, &rewrites(&vectors))
}

/// The vectors as they are stored: the number of sheets to resolve; for each its edition, where that stands before each, the lengths of its
/// title and of the sheet, the number of lent numbers, the title and the sheet; then the number of sheets to rewrite; for each its edition
/// likewise, the lengths of its title and of the sheet, the number of lent bytes, the start, the title, the sheet, and what the lent bytes
/// hold afterwards.
pub fn packed(editions: Editions, vectors: &[Vector], rewrites: &[Rewrite]) -> Vec<u8> {
    let mut bytes = Vec::new();
    put_size(&mut bytes, vectors.len());
    for Vector { edition, title, sheet, lent } in vectors {
        editions.put(&mut bytes, *edition);
        put_size(&mut bytes, title.len());
        put_size(&mut bytes, sheet.len());
        put_size(&mut bytes, *lent);
        bytes.extend(title.bytes());
        bytes.extend(sheet);
    }
    put_size(&mut bytes, rewrites.len());
    for Rewrite { edition, title, sheet, lent, start } in rewrites {
        editions.put(&mut bytes, *edition);
        put_size(&mut bytes, title.len());
        put_size(&mut bytes, sheet.len());
        put_size(&mut bytes, *lent);
        put(&mut bytes, *start);
        bytes.extend(title.bytes());
        bytes.extend(&**sheet);
        bytes.extend(rewritten(*edition, sheet, *lent, *start as usize).1);
    }
    bytes
}

pub fn answers(input: &[u8]) -> Vec<u8> {
    answers_in(Editions::First, input)
}

pub fn answers_in(editions: Editions, input: &[u8]) -> Vec<u8> {
    let mut lines = String::new();
    let mut reader = Reader::new(input);
    for _ in 0..reader.u32() {
        let edition = editions.read(&mut reader);
        let (title_length, length, lent) = (reader.size(), reader.size(), reader.size());
        let title = reader.text(title_length);
        writeln!(lines, "{title}: {}", resolved(edition, reader.take(length), lent)).unwrap();
    }
    for _ in 0..reader.u32() {
        let edition = editions.read(&mut reader);
        let (title_length, length, lent, start) = (reader.size(), reader.size(), reader.size(), reader.size());
        let title = reader.text(title_length);
        let (first, held) = rewritten(edition, reader.take(length), lent, start);
        let found = if held == reader.take(lent) { "as expected" } else { "not as expected" };
        writeln!(lines, "{title}: {first} {found}").unwrap();
    }
    lines.into()
}

/// What the lent numbers hold before, by their places.
const MARK: u32 = 0xA5A5_A5A5;

/// The answer to a sheet, whether the lent numbers beyond it were kept, and the rows.
pub fn resolved(edition: u32, sheet: &[u8], lent: usize) -> String {
    let mut rows = vec![MARK; lent];
    let (first, written) = match resolve(edition, sheet, &mut rows) {
        Ok(count) => (format!("nodes {count}"), ROW_WIDTH * count as usize),
        Err(refusal) => (refusal.to_string(), 0),
    };
    let (written, beyond) = rows.split_at(written);
    let kept = if beyond.iter().all(|&number| number == MARK) { "kept" } else { "not kept" };
    format!("{first} {kept}\n{}", rows_text(written)).trim_end().to_string()
}

/// What the lent bytes hold before: their places modulo this number.
const MARKS: usize = 251;

/// The answer to a sheet to rewrite, and what the lent bytes hold afterwards.
fn rewritten(edition: u32, sheet: &[u8], lent: usize, start: usize) -> (String, Vec<u8>) {
    let mut held: Vec<u8> = (0..lent).map(|at| (at % MARKS) as u8).collect();
    let first = match rewrite(edition, sheet, &mut held, start) {
        Ok(count) => {
            let made = &held[start..][..count as usize];
            let mut again = vec![0; made.len()];
            let same = rewrite(edition, made, &mut again, 0).is_ok() && again == made;
            format!("bytes {count} again {}", if same { "the same" } else { "another" })
        }
        Err(refusal) => refusal.to_string(),
    };
    (first, held)
}

/// A sheet to rewrite into so many lent bytes from a start on, by an edition.
pub struct Rewrite<'a> {
    pub edition: u32,
    pub title: String,
    pub sheet: Cow<'a, [u8]>,
    pub lent: usize,
    pub start: u32,
}

/// How the titles begin of the sheets that are rewritten too.
const REWRITTEN: [&str; 13] = [
    "every annotation",
    "MAP",
    "rule ",
    "one repeated field",
    "DECIMAL(9",
    "UINT_8 beside",
    "TIME_MI",
    "UUID on",
    "INTERVAL on FIXED",
    "root alone",
    "random tree 1",
    "damaged tree 1",
    "896 nodes in maps",
];

fn rewrites(vectors: &[Vector]) -> Vec<Rewrite<'_>> {
    let mut rewrites = Vec::new();
    let mut add = |title: String, sheet, lent, start| {
        rewrites.push(Rewrite { edition: FIRST, title, sheet, lent, start });
    };
    let sample = sheet_of(&example());
    for (lent, start) in [
        (512, 0),
        (513, 1),
        (1023, 511),
        (1100, 0),
        (1100, 1),
        (1100, 511),
        (1100, 588),
        (1100, 589),
        (511, 0),
        (512, 1),
        (1024, 513),
        (512, 512),
        (512, 513),
        (600, 601),
        (0, 0),
        (0, 1),
        (1100, u32::MAX),
    ] {
        add(format!("example, {lent} lent from {start}"), Cow::Owned(sample.clone()), lent, start);
    }
    let fault = sheet_of(&root([int32().length(1)]));
    add("fault before too little".to_string(), Cow::Owned(fault), 0, 1);
    let check = [&sample[..BLOCK - 1], &[0xFF]].concat();
    add("check before too little".to_string(), Cow::Owned(check), 10, 11);
    let mut named = BTreeSet::new();
    for Vector { title, sheet, .. } in vectors {
        if REWRITTEN.iter().any(|start| title.starts_with(start)) && named.insert(title) {
            add(title.clone(), Cow::Borrowed(sheet), sheet.len() + 2, named.len() as u32 % 3);
        }
    }
    rewrites
}

fn outputs(vectors: &mut Vectors) {
    for lent in [0, 35, 36, 43, 44, 45, MOST_LENT] {
        vectors.lend(format!("example, {lent} lent"), sheet_of(&example()), lent);
    }
    for lent in [0, 9, 10, 11, 12] {
        vectors.lend(format!("root alone, {lent} lent"), sheet_of(&root([])), lent);
    }
    vectors.lend("fault and too little lent", sheet_of(&root([int32().length(1)])), 21);
    vectors.lend("too deep and too little lent", sheet_of(&root([chain(34)])), 11);
    vectors.lend("too few nodes and too little lent", sheet_of(&root([int32()]).claiming(2)), 0);
}

fn sheets(vectors: &mut Vectors) {
    let sheet = sheet_of(&root((0..9).map(|_| int32())));
    for size in [0, 1, 511, 513, 1023] {
        vectors.sheet(format!("{size} bytes"), sheet[..size].to_vec());
    }
    vectors.sheet("65537 bytes", vec![0; 65537]);
    vectors.sheet("129 blocks", vec![0; 66048]);
    vectors.sheet("zeros", vec![0; 512]);
    let flipped = |at: usize| {
        let mut other = sheet.clone();
        other[at] ^= 1;
        other
    };
    vectors.sheet("check of block 0", flipped(510));
    vectors.sheet("check of block 1", flipped(600));
    let mut other = changed(&sheet, 3, &[2]);
    *other.last_mut().expect("two blocks") = 0xFF;
    vectors.sheet("check before header", other);
    for (at, value) in [(0, 1), (2, 6), (3, 0), (4, 0), (4, 9), (4, 17), (5, 4)] {
        vectors.sheet(format!("byte {at} of header 0 is {value}"), changed(&sheet, at, &[value]));
    }
    for (at, value) in [(0, 0), (1, 1), (2, 2), (2, 4), (3, 2), (4, 11)] {
        vectors.sheet(format!("byte {at} of header 1 is {value}"), changed(&sheet, BLOCK + at, &[value]));
    }
    vectors.sheet("header before slot", changed(&changed(&sheet, BLOCK + 3, &[0]), 6, &[9]));
    for (at, value) in [(0, 8), (1, 3), (2, 22), (3, 9), (20, 0), (20, 49), (21, 1), (71, 1)] {
        vectors.sheet(format!("byte {at} of slot 8 is {value}"), changed(&sheet, BLOCK + 6 + SLOT + at, &[value]));
    }
    vectors.sheet("unused slot 10", changed(&sheet, BLOCK + 6 + 3 * SLOT, &[1]));
    vectors.sheet("unused slot 13", changed(&sheet, BLOCK + 509, &[1]));
    vectors.sheet("slot before places", changed(&changed(&sheet, BLOCK + 6, &[9]), 12, &[4]));
}

fn places(vectors: &mut Vectors) {
    let parts: [(&str, &[&[u16]]); 4] = [
        (
            "left over",
            &[
                &[0, 0],
                &[0, 1, 0],
                &[1, 0, 0],
                &[2, 0, 0, 0],
                &[2, 1, 0, 0, 0, 0],
                &[1, 1, 1, 0, 0],
                &[0, 0, 0, 0, 0, 0, 0, 0],
            ],
        ),
        (
            "missing",
            &[
                &[1],
                &[2, 0],
                &[65535],
                &[1, 1],
                &[2, 0, 1],
                &[3, 1, 0, 0],
                &[1, 65535],
                &[2, 2, 0, 0],
                &[1, 1, 1, 1, 1, 1, 1],
            ],
        ),
        ("left over before missing", &[&[0, 65535], &[0, 65535, 65535], &[1, 0, 2, 0]]),
        ("filled", &[&[1, 1, 0], &[2, 0, 0], &[2, 1, 0, 0], &[3, 0, 1, 0, 0]]),
    ];
    for (title, all) in parts {
        for claims in all {
            let mut nodes = vec![root([]).claiming(claims[0])];
            let node = |&claim: &u16| if claim > 0 { group([]) } else { int32() }.claiming(claim);
            nodes.extend(claims[1..].iter().map(node));
            let listed: Vec<String> = claims.iter().map(u16::to_string).collect();
            vectors.sheet(format!("{title}: claims {}", listed.join(" ")), sheet_of_all(&nodes));
        }
    }
}

fn sheet_of_all(nodes: &[Node]) -> Vec<u8> {
    sheet_of_nodes(&nodes.iter().collect::<Vec<_>>())
}

/// What stands below a root so that there are so many nodes, each the only field of the one before.
fn chain(count: usize) -> Node {
    (2..count).fold(int32(), |below, _| group([below]))
}

fn depths(vectors: &mut Vectors) {
    for count in [32, 33, 34, 40] {
        vectors.tree(format!("chain of {count}"), root([chain(count)]));
    }
    vectors.tree("fault, then a node too deep", root([int32().length(1), chain(34)]));
    vectors.tree("fault at the root and a node too deep", root([chain(34)]).repetition(REQUIRED));
    vectors.tree("two nodes too deep", root([int32(), chain(35), chain(36)]));
    vectors.tree("a tooth of a comb too deep", comb(false, 32, 1));
    vectors.tree("a tooth of a comb too deep, spine first", comb(true, 32, 1));
    vectors.tree("node too deep and one missing", root([chain(35)]).claiming(2));
    vectors.tree("node too deep and one left over", root([chain(35), int32()]).claiming(1));
    vectors.tree("leaves of a chain of leaves too deep", root([leaf_chain(34)]));
    vectors.tree("leaves of a chain of leaves not too deep", root([leaf_chain(33)]));
    vectors.tree("lists in lists", root([nested_lists(15)]));
    vectors.tree("lists in lists too deep", root([nested_lists(16)]));
    let chains = (0..27).map(|_| chain(33)).chain([chain(32)]);
    for (title, top) in [
        ("896 nodes flat", root((0..895).map(|k| int32().named(k.to_string())))),
        ("896 nodes in chains of 33", root(chains)),
        ("896 nodes in a comb, teeth first", comb(false, 31, 27)),
        ("896 nodes in a comb, spine first", comb(true, 31, 27)),
        ("896 nodes in maps nested in keys", map_combs()),
    ] {
        assert_eq!(top.listing().len(), MAX_NODES);
        vectors.lend(title, sheet_of(&top), MOST_LENT);
    }
    let flat = |count| (0..count).map(|_| int32());
    for lent in [8064, 9855, 9856] {
        vectors.lend(format!("896 nodes flat, {lent} lent"), sheet_of(&root(flat(895))), lent);
    }
    vectors.lend("896 nodes, the last too deep", sheet_of(&root(flat(862).chain([chain(34)]))), 9856);
    vectors.lend("896 nodes, a fault at the last", sheet_of(&root(flat(894).chain([int32().length(1)]))), 9856);
}

/// Document 02, R-8: nodes of each repetition above, before and behind one another.
fn levels(vectors: &mut Vectors) {
    let repetitions = [REQUIRED, OPTIONAL, REPEATED];
    // Down to depth 32, the deepest first.
    let path = |of: &dyn Fn(usize) -> u8| {
        (1..32).rev().fold(int32().repetition(of(32)), |below, depth| group([below]).repetition(of(depth)))
    };
    for repetition in repetitions {
        vectors.tree(format!("levels, 32 nodes of repetition {repetition}"), root([path(&|_| repetition)]));
    }
    for at in [1, 2, 16, 31, 32] {
        for repetition in [OPTIONAL, REPEATED] {
            let one = path(&|depth| if depth == at { repetition } else { REQUIRED });
            vectors.tree(format!("levels, repetition {repetition} at depth {at} alone"), root([one]));
            let others = path(&|depth| if depth == at { REQUIRED } else { repetition });
            vectors.tree(format!("levels, repetition {repetition} everywhere but at depth {at}"), root([others]));
        }
    }
    vectors.tree("levels, each repetition in turn", root([path(&|depth| repetitions[depth % 3])]));
    for first in repetitions {
        for second in repetitions {
            let title = |shape: &str| format!("levels, {shape} of repetitions {first} and {second}");
            let leaves = || [int32().repetition(first), int32().repetition(second), int32()];
            vectors.tree(title("leaves"), root(leaves()));
            vectors.tree(
                title("leaves in a group in another"),
                root([group([group(leaves()).repetition(second), int32()]).repetition(first)]),
            );
            let groups = leaves().map(|field| group([int32(), field.clone(), repeated()]).repetition(field.repetition));
            vectors.tree(title("groups"), root(groups));
        }
    }
    let optional = |node: Node| node.repetition(OPTIONAL);
    let element = || optional(int32().named("element"));
    vectors.field("levels, optional LIST of optional elements", optional(list([layer([element()])])));
    let inner = optional(list([layer([element()])]));
    vectors.field("levels, such a LIST in such a LIST", optional(list([layer([inner.clone()])])));
    vectors.field("levels, such a LIST in the value of an optional MAP", optional(map_to(inner)));
    vectors.field("levels, a MAP's key and value", map_to(element()));
    let comb = (0..31).fold(optional(int32()), |spine, depth| {
        let teeth = [repeated(), optional(int32())];
        let fields = if depth % 2 == 0 {
            vec![spine, teeth[0].clone(), int32()]
        } else {
            vec![teeth[1].clone(), spine, int32()]
        };
        group(fields).repetition(repetitions[depth % 3])
    });
    vectors.tree("levels, fields before and behind a spine of 32", root([comb, int32()]));
}

fn leaf_chain(count: usize) -> Node {
    (2..count).fold(int32(), |below, _| int32().having([below]))
}

/// A spine of such a height below the root, each node of it with so many leaves, and so many below the root.
fn comb(spine_first: bool, height: usize, width: usize) -> Node {
    let joined = |spine: Option<Node>, teeth: Vec<Node>| -> Vec<Node> {
        if spine_first {
            spine.into_iter().chain(teeth).collect()
        } else {
            teeth.into_iter().chain(spine).collect()
        }
    };
    let teeth = || (0..width).map(|k| int32().named(format!("tooth {k}"))).collect();
    let spine = (0..height).fold(None, |spine, _| Some(group(joined(spine, teeth()))));
    root(joined(spine, (0..width).map(|_| int32()).collect()))
}

/// Lists, each the element of the one before, by rule 4.
fn nested_lists(count: usize) -> Node {
    (0..count).fold(int32().named("element"), |below, _| list([layer([below])]))
}

/// Maps, each the key of the one before, each with a value.
fn nested_maps(count: usize) -> Node {
    (0..count).fold(key(), |below, level| {
        let value = leaf(BYTE_ARRAY).repetition(OPTIONAL).converted(converted::UTF8).named(format!("value{level}"));
        map([key_value([below, value])])
    })
}

fn map_combs() -> Node {
    let combs: Vec<Node> = (0..19).map(|_| nested_maps(15)).collect();
    let taken: usize = combs.iter().map(|comb| comb.listing().len()).sum();
    root(combs.into_iter().chain((taken..895).map(|_| int32())))
}

fn shapes(vectors: &mut Vectors) {
    vectors.tree("root is a leaf", int32().repetition(NONE));
    for repetition in [REQUIRED, OPTIONAL, REPEATED] {
        vectors.tree(format!("root has repetition {repetition}"), root([int32()]).repetition(repetition));
    }
    vectors.tree("root has converted LIST", root([layer([int32()])]).converted(converted::LIST));
    vectors.tree("root has logical MAP", root([entry()]).logical(logical::MAP));
    vectors.tree("root has converted UTF8", root([]).converted(converted::UTF8));
    vectors.tree("root has parameter a", root([]).parameters(1, 0));
    vectors.tree("root has parameter b", root([int32()]).parameters(0, 1));
    vectors.tree("root has type length", root([int32()]).length(1));
    vectors.tree("root has scale", root([int32()]).digits(0, 1));
    vectors.tree("root has precision", root([int32()]).digits(1, 0));
    vectors.field("leaf without repetition", int32().repetition(NONE));
    vectors.field("group without repetition", group([int32()]).repetition(NONE));
    vectors.field("leaf with a child", int32().having([int32()]));
    vectors.field("leaf with two children", int32().having([int32(), group([int32()])]));
    vectors.field("leaf deeper with a child", group([int32(), int32().having([int32()])]));
    vectors.field("group without children", group([]));
    for length in [i32::MIN, -1, 0, 1, 2, i32::MAX] {
        vectors.field(format!("FIXED of length {length}"), leaf(FIXED).length(length));
        vectors.field(format!("INT32 of length {length}"), int32().length(length));
        vectors.field(format!("BYTE_ARRAY of length {length}"), leaf(BYTE_ARRAY).length(length));
        vectors.field(format!("group of length {length}"), group([int32()]).length(length));
    }
    for number in [1, -1] {
        vectors.field(format!("scale {number} without DECIMAL"), int32().digits(0, number));
        vectors.field(format!("precision {number} without DECIMAL"), int32().digits(number, 0));
        vectors.field(format!("scale {number} on a group"), group([int32()]).digits(0, number));
        vectors.field(format!("precision {number} on DATE"), int32().logical(logical::DATE).digits(number, 0));
    }
    vectors.field("scale and precision by converted", int32().converted(converted::DECIMAL).digits(9, 2));
    vectors.field("scale and precision by logical", int32().logical(logical::DECIMAL).digits(9, 2));
}

/// A leaf with a logical type.
fn annotated_leaf(physical: u8, logical: Logical) -> Node {
    let (a, b) = logical.parameters();
    leaf(physical).logical(logical.code()).parameters(a, b)
}

/// Every annotation where it may stand: by its converted type, by its logical type and by both.
fn annotated(vectors: &mut Vectors) {
    let mut leaves = Vec::new();
    for code in 0..CONVERTED.len() as u8 {
        if code == converted::INTERVAL {
            leaves.push(leaf(FIXED).length(12).converted(code));
        }
        let Some(logical) = Logical::backward(code).filter(|found| ![Logical::Map, Logical::List].contains(found))
        else {
            continue;
        };
        let (precision, scale) = if logical == Logical::Decimal { (4, 1) } else { (0, 0) };
        for physical in physical_types(logical) {
            leaves.push(leaf(physical).converted(code).digits(precision, scale));
            leaves.push(annotated_leaf(physical, logical).converted(code).digits(precision, scale));
        }
    }
    for logical in logical_types() {
        let precision = if logical == Logical::Decimal { 1 } else { 0 };
        for physical in physical_types(logical) {
            leaves.push(annotated_leaf(physical, logical).repetition(OPTIONAL).digits(precision, 0));
        }
    }
    leaves.extend((0..=FIXED).map(|physical| leaf(physical).repetition(REPEATED)));
    vectors.tree("every annotation where it may stand", root(leaves.clone()));
    let groups = leaves.into_iter().map(|leaf| group([leaf]).repetition(REPEATED));
    vectors.tree("every annotation where it may stand, in groups", root(groups));
}

fn disagreements(vectors: &mut Vectors) {
    use converted::*;
    for (code, other, a, b) in [
        (UTF8, logical::STRING, 0, 0),
        (UTF8, logical::STRING, 1, 0),
        (UTF8, logical::STRING, 0, 1),
        (ENUM, logical::STRING, 0, 0),
        (LIST, logical::STRING, 0, 0),
        (BSON, logical::JSON, 0, 0),
        (JSON, logical::BSON, 0, 0),
        (DATE, logical::DATE, 0, 1),
        (DATE, logical::TIME, 1, 1),
        (TIME_MILLIS, logical::TIME, 1, 0),
        (TIME_MILLIS, logical::TIME, 1, 2),
        (TIME_MILLIS, logical::TIME, 0, 1),
        (TIME_MILLIS, logical::TIME, 3, 1),
        (TIME_MICROS, logical::TIME, 3, 0),
        (TIME_MICROS, logical::TIME, 1, 1),
        (TIMESTAMP_MILLIS, logical::TIMESTAMP, 2, 1),
        (TIMESTAMP_MILLIS, logical::TIMESTAMP, 1, 0),
        (TIMESTAMP_MILLIS, logical::TIME, 1, 1),
        (TIMESTAMP_MICROS, logical::TIMESTAMP, 2, 0),
        (TIMESTAMP_MICROS, logical::TIMESTAMP, 3, 0),
        (UINT_8, logical::INTEGER, 8, 1),
        (INT_8, logical::INTEGER, 8, 0),
        (INT_16, logical::INTEGER, 32, 1),
        (INT_32, logical::INTEGER, 32, 1),
        (INT_32, logical::INTEGER, 33, 1),
        (UINT_16, logical::INTEGER, 16, 2),
        (INT_64, logical::INTEGER, 64, 1),
        (UINT_64, logical::INTEGER, 64, 1),
        (UTF8, logical::UNKNOWN, 0, 0),
        (DECIMAL, logical::UUID, 0, 0),
        (INTERVAL, logical::UUID, 0, 0),
        (INTERVAL, logical::DECIMAL, 0, 0),
        (DECIMAL, logical::INTEGER, 32, 1),
    ] {
        let title = format!("{} beside {}({a}, {b})", CONVERTED[usize::from(code)], LOGICAL[usize::from(other)]);
        let node = leaf(usual_physical(other, a)).repetition(OPTIONAL).converted(code);
        vectors.field(title, node.logical(other).parameters(a, b));
    }
    let elements = || [layer([int32()])];
    vectors.field("LIST beside MAP", list(elements()).logical(logical::MAP));
    vectors.field("MAP beside LIST", map([entry()]).converted(MAP).logical(logical::LIST));
    vectors.field("MAP_KEY_VALUE beside MAP", map([entry()]).converted(MAP_KEY_VALUE));
    let marked = key_value([int32()]).converted(MAP_KEY_VALUE).logical(logical::MAP);
    vectors.field("MAP_KEY_VALUE beside MAP in a MAP", map([marked]));
    vectors.field("LIST beside LIST", list(elements()).logical(logical::LIST));
    vectors.field("MAP beside MAP", map([entry()]).converted(MAP));
    vectors.field("LIST beside LIST with a parameter", list(elements()).logical(logical::LIST).parameters(1, 0));
}

/// The first physical type that a logical type of a leaf may stand on, whatever its parameters are.
fn usual_physical(code: u8, a: u8) -> u8 {
    match code {
        logical::INTEGER if a == 64 => INT64,
        logical::TIME if a > 1 => INT64,
        logical::INTEGER | logical::TIME | logical::DATE | logical::DECIMAL => INT32,
        logical::TIMESTAMP => INT64,
        logical::UUID => FIXED,
        logical::UNKNOWN => BOOLEAN,
        _ => BYTE_ARRAY,
    }
}

fn misplaced(vectors: &mut Vectors) {
    for (code, a, b) in [
        (logical::STRING, 0, 0),
        (logical::ENUM, 0, 0),
        (logical::DECIMAL, 0, 0),
        (logical::DATE, 0, 0),
        (logical::TIME, 1, 1),
        (logical::TIME, 2, 0),
        (logical::TIME, 3, 1),
        (logical::TIMESTAMP, 1, 0),
        (logical::INTEGER, 16, 1),
        (logical::INTEGER, 64, 0),
        (logical::JSON, 0, 0),
        (logical::BSON, 0, 0),
        (logical::UUID, 0, 0),
        (logical::MAP, 0, 0),
        (logical::LIST, 0, 0),
    ] {
        let name = LOGICAL[usize::from(code)];
        let found = Logical::from_code(code, a, b).expect("right parameters");
        let is_leaf = ![Logical::Map, Logical::List].contains(&found);
        let precision = if found == Logical::Decimal { 2 } else { 0 };
        let given = |node: Node| node.logical(code).parameters(a, b).digits(precision, 0);
        for physical in 0..=FIXED {
            if !is_leaf || !physical_types(found).contains(&physical) {
                vectors.field(format!("{name}({a}, {b}) on physical {physical}"), given(leaf(physical)));
            }
        }
        if is_leaf {
            vectors.field(format!("{name}({a}, {b}) on a group"), given(group([int32()])));
        }
    }
    vectors.field("UNKNOWN on a group", group([int32()]).logical(logical::UNKNOWN));
    vectors.field("INTERVAL on a group", group([int32()]).converted(converted::INTERVAL));
    for length in [11, 12, 13, 15, 16, 17] {
        let fixed = || leaf(FIXED).length(length);
        vectors.field(format!("INTERVAL on FIXED {length}"), fixed().converted(converted::INTERVAL));
        vectors.field(format!("UUID on FIXED {length}"), fixed().logical(logical::UUID));
    }
    for (code, a, b) in [
        (logical::INTEGER, 0, 0),
        (logical::INTEGER, 24, 1),
        (logical::INTEGER, 32, 2),
        (logical::TIME, 0, 0),
        (logical::TIME, 4, 0),
        (logical::TIMESTAMP, 0, 1),
        (logical::TIMESTAMP, 4, 1),
        (logical::TIMESTAMP, 3, 255),
        (logical::STRING, 1, 0),
        (logical::STRING, 0, 1),
        (logical::DATE, 1, 1),
        (logical::UUID, 0, 1),
        (logical::UNKNOWN, 1, 0),
        (logical::NONE, 1, 0),
        (logical::NONE, 0, 255),
    ] {
        let title = format!("{} has parameters {a}, {b}", LOGICAL[usize::from(code)]);
        vectors.field(title, leaf(usual_physical(code, a)).logical(code).parameters(a, b));
    }
    vectors.field("DECIMAL has parameter a", int32().logical(logical::DECIMAL).parameters(1, 0).digits(3, 0));
    let logical_list = list([layer([int32()])]).logical(logical::LIST).converted(converted::NONE);
    vectors.field("LIST has parameter b", logical_list.parameters(0, 1));
    vectors.field("converted UTF8 has parameter a", leaf(BYTE_ARRAY).converted(converted::UTF8).parameters(1, 0));
    vectors.field("converted INT_8 has parameters", int32().converted(converted::INT_8).parameters(8, 1));
    let interval = leaf(FIXED).converted(converted::INTERVAL).length(12);
    vectors.field("INTERVAL has parameter b", interval.parameters(0, 1));
    vectors.field("plain group has parameter a", group([int32()]).parameters(1, 0));
    let marked = key_value([int32()]).converted(converted::MAP_KEY_VALUE);
    vectors.field("key_value layer has parameter a", map([marked.parameters(1, 0)]));
    use converted::*;
    for code in [
        UTF8,
        ENUM,
        JSON,
        BSON,
        DATE,
        TIME_MILLIS,
        TIME_MICROS,
        TIMESTAMP_MILLIS,
        UINT_8,
        INT_64,
        MAP,
        MAP_KEY_VALUE,
        LIST,
        INTERVAL,
        DECIMAL,
    ] {
        vectors.field(format!("converted {} on BOOLEAN", CONVERTED[usize::from(code)]), leaf(BOOLEAN).converted(code));
    }
}

fn digits(vectors: &mut Vectors) {
    for (precision, scale) in [
        (0, 0),
        (-1, 0),
        (1, 0),
        (1, 1),
        (2, 1),
        (2, -1),
        (9, 8),
        (9, 9),
        (10, 0),
        (18, 17),
        (19, 0),
        (1, 2),
        (i32::MAX, i32::MAX - 1),
        (i32::MAX, i32::MAX),
        (i32::MIN, i32::MIN),
    ] {
        for (physical, name) in [(INT32, "INT32"), (INT64, "INT64"), (BYTE_ARRAY, "BYTE_ARRAY")] {
            let title = format!("DECIMAL({precision}, {scale}) on {name}");
            vectors.field(title, leaf(physical).logical(logical::DECIMAL).digits(precision, scale));
        }
    }
    for (length, precision) in [
        (1, 2),
        (1, 3),
        (2, 4),
        (2, 5),
        (4, 9),
        (4, 10),
        (8, 18),
        (8, 19),
        (16, 38),
        (16, 39),
        (256, 616),
        (256, 617),
        (257, 2),
        (i32::MAX, 1),
    ] {
        let both = leaf(FIXED).length(length).converted(converted::DECIMAL).logical(logical::DECIMAL);
        vectors.field(format!("DECIMAL({precision}, 0) on FIXED {length}"), both.digits(precision, 0));
    }
    vectors.field("converted DECIMAL, scale as precision", int32().converted(converted::DECIMAL).digits(3, 3));
}

/// A name for a title, cut where it is long.
fn shown(name: &[u8]) -> String {
    let text: String = name
        .iter()
        .map(|&byte| match byte {
            b' '..=b'~' => char::from(byte).to_string(),
            _ => format!("\\x{byte:02x}"),
        })
        .collect();
    if text.len() <= 20 {
        text
    } else {
        format!("{}.. of {}", &text[..4], name.len())
    }
}

fn repeated() -> Node {
    int32().repetition(REPEATED)
}

fn list_rules(vectors: &mut Vectors) {
    vectors.field("rule 1", list([repeated()]));
    let doubles = list([leaf(DOUBLE).repetition(REPEATED)]).converted(converted::NONE).logical(logical::LIST);
    vectors.field("rule 1, optional LIST by logical", doubles.repetition(OPTIONAL));
    vectors.field("rule 1, leaf named array", list([repeated().named("array")]));
    vectors.field("rule 1, leaf with a child", list([repeated().having([int32()])]));
    vectors.field("rule 2", list([layer([int32(), int32().repetition(OPTIONAL)])]));
    let group_repeated = || group([int32()]).repetition(REPEATED);
    vectors.field("rule 2, repeated fields", list([layer([repeated(), group_repeated(), int32()])]));
    vectors.field("rule 2, named array", list([layer([int32(), int32()]).named("array")]));
    for name in ["array", "parts_tuple"] {
        for repetition in [REQUIRED, OPTIONAL, REPEATED] {
            let title = format!("rule 3, {name}, field of repetition {repetition}");
            vectors.field(title, list([layer([int32().repetition(repetition)]).named(name)]));
        }
        let without = layer([int32().repetition(NONE)]).named(name);
        vectors.field(format!("rule 3, {name}, field without repetition"), list([without]));
        let pair = layer([group([int32(), int32()])]).named(name);
        vectors.field(format!("rule 3, {name}, field a group"), list([pair]));
    }
    for repetition in [REQUIRED, OPTIONAL] {
        let element = int32().repetition(repetition);
        vectors.field(format!("rule 4, element of repetition {repetition}"), list([layer([element])]));
        let element = group([int32(), repeated()]).repetition(repetition);
        vectors.field(format!("rule 4, group element of repetition {repetition}"), list([layer([element])]));
    }
    let n = |count| vec![b'n'; count];
    let n_and = |count, end: &[u8]| [n(count), end.to_vec()].concat();
    let pairs: [(&[u8], &[u8]); 27] = [
        (b"parts", b"parts_tupl"),
        (b"parts", b"parts_tuples"),
        (b"parts", b"xparts_tuple"),
        (b"parts", b"part_tuple"),
        (b"parts", b"_tuple"),
        (b"parts", b"x_tuple"),
        (b"parts", b"parts"),
        (b"parts", b"parts_TUPLE"),
        (b"parts", b"tuple"),
        (b"parts", b"Array"),
        (b"parts", b"arra"),
        (b"parts", b"arrays"),
        (b"parts", b"array\0"),
        (b"array", b"array_tuple"),
        (b"array", b"array"),
        (b"x", b"x_tuple"),
        (b"x_tuple", b"x_tuple"),
        (b"x", b"x_tuple_tuple"),
        (b"x_tuple", b"x_tuple_tuple"),
        (b"x\0", b"x\0_tuple"),
        (b"x", b"x\0_tuple"),
        (&n(42), &n_and(42, b"_tuple")),
        (&n(43), &n_and(43, b"_tupl")),
        (&n(48), &n_and(42, b"_tuple")),
        (b"\xFF", b"\xFF_tuple"),
        (b"list", b"list_tuple"),
        (b"element", b"list_tuple"),
    ];
    for (own, name) in pairs {
        for repetition in [OPTIONAL, REPEATED] {
            let title = format!("LIST {}, layer {}, field of repetition {repetition}", shown(own), shown(name));
            vectors.field(title, list([layer([int32().repetition(repetition)]).named(name)]).named(own));
        }
    }
    let plain = || list([layer([int32()])]);
    vectors.field("LIST in rule 3 of a LIST", list([layer([plain()]).named("array")]));
    let inner = list([layer([int32()]).named("outer_tuple")]);
    vectors.field("rule 4 by the name of the list above", list([layer([inner])]).named("outer"));
    vectors.field("LIST in rule 1 of a LIST", list([layer([list([repeated()])])]));
    vectors.field("MAP in a LIST", list([layer([map([key_value([key(), int32()])])])]));
    vectors.fields("repeated beside LIST", [repeated(), plain(), group_repeated()]);
}

fn list_faults(vectors: &mut Vectors) {
    for (repetition, word) in [(REPEATED, "repeated"), (NONE, "without repetition")] {
        vectors.field(format!("LIST {word}"), list([layer([int32()])]).repetition(repetition));
        vectors.field(format!("LIST {word}, rule 1"), list([repeated()]).repetition(repetition));
        vectors.field(format!("LIST {word}, one repeated field"), list([layer([repeated()])]).repetition(repetition));
    }
    vectors.field("LIST element without repetition", list([layer([int32().repetition(NONE)])]));
    vectors.field("LIST group element without repetition", list([layer([group([int32()]).repetition(NONE)])]));
    vectors.field("LIST without children", list([]));
    vectors.field("LIST with two children", list([layer([int32()]), layer([int32()])]));
    vectors.field("LIST with a second child that is not repeated", list([layer([int32()]), int32()]));
    for repetition in [REQUIRED, OPTIONAL, NONE] {
        let child = || layer([int32()]).repetition(repetition);
        vectors.field(format!("LIST child of repetition {repetition}"), list([child()]));
        vectors.field(format!("LIST leaf child of repetition {repetition}"), list([int32().repetition(repetition)]));
        vectors.field(format!("LIST child array of repetition {repetition}"), list([child().named("array")]));
        let pair = layer([int32(), int32()]).repetition(repetition);
        vectors.field(format!("LIST child of two fields, of repetition {repetition}"), list([pair]));
        let single = layer([repeated()]).repetition(repetition);
        vectors.field(format!("LIST child of one repeated field, of repetition {repetition}"), list([single]));
    }
    vectors.field("LIST child without fields", list([layer([])]));
    vectors.field("LIST child array without fields", list([layer([]).named("array")]));
    vectors.field("LIST in a LIST without a layer", list([list([repeated()]).repetition(REPEATED)]));
    vectors.field("LIST layer is a MAP", list([map([entry()]).repetition(REPEATED)]));
    vectors.field("LIST on a leaf", int32().converted(converted::LIST));
}

/// Document 02, R-2: a LIST's layer whose one field is repeated.
fn one_repeated_field(vectors: &mut Vectors) {
    let repeating = |fields: Vec<Node>| group(fields).repetition(REPEATED);
    for (word, field) in [
        ("leaf", repeated()),
        ("UTF8 leaf", leaf(BYTE_ARRAY).repetition(REPEATED).converted(converted::UTF8)),
        ("group", repeating(vec![int32(), repeated()])),
        ("group of one leaf", repeating(vec![int32()])),
        ("group of one repeated leaf", repeating(vec![repeated()])),
        ("group named array", repeating(vec![int32()]).named("array")),
        ("group of a LIST", repeating(vec![list([layer([int32()])])])),
        ("group of a MAP", repeating(vec![map([entry()])])),
    ] {
        let holder = || layer([field.clone()]);
        let title = |place: &str| format!("one repeated field, a {word}, {place}");
        for name in ["list", "array", "parts_tuple", "x_tuple", "parts"] {
            vectors.field(title(&format!("layer {name}")), list([holder().named(name)]));
        }
        let by_logical = list([holder()]).converted(converted::NONE).logical(logical::LIST);
        vectors.field(title("optional LIST by logical"), by_logical.repetition(OPTIONAL));
        vectors.field(title("LIST by both"), list([holder()]).logical(logical::LIST));
        vectors.field(title("in the element of a LIST"), list([layer([list([holder()])])]));
        vectors.field(title("in a field of an element"), list([layer([list([holder()]), int32()])]));
        vectors.field(title("in such a field"), list([layer([repeating(vec![list([holder()])])])]));
        vectors.field(title("in the value of a MAP"), map([key_value([key(), list([holder()])])]));
        vectors.fields(title("beside others"), [repeated(), list([holder()]), list([layer([int32()])])]);
    }
    vectors.tree("one repeated field, lists in them", root([nested_repeated_fields(10)]));
    vectors.tree("one repeated field, lists in them too deep", root([nested_repeated_fields(11)]));
    let repeated_list = || list([layer([int32()])]).repetition(REPEATED);
    vectors.field("one repeated field, a LIST", list([layer([repeated_list()])]));
    vectors.field("one repeated field, a LIST, layer array", list([layer([repeated_list()]).named("array")]));
    vectors.field("one repeated field, a MAP", list([layer([map([entry()]).repetition(REPEATED)])]));
    vectors.field("one repeated field, with a type length", list([layer([repeated().length(1)])]));
    vectors.field("one repeated field, a group without fields", list([layer([repeating(vec![])])]));
    vectors.field("one repeated field, a leaf with a child", list([layer([repeated().having([int32()])])]));
    vectors.field("one repeated field, beside another layer", list([layer([repeated()]), layer([repeated()])]));
}

/// Lists, each in the one repeated field of the layer of the one before.
fn nested_repeated_fields(count: usize) -> Node {
    (0..count).fold(int32(), |below, _| list([layer([group([below]).repetition(REPEATED)])]))
}

/// A MAP of a key, the plain one, and this value.
fn map_to(value: Node) -> Node {
    map([key_value([key(), value])])
}

fn map_rules(vectors: &mut Vectors) {
    for (code, by_logical) in
        [(converted::NONE, true), (converted::MAP, true), (converted::MAP, false), (converted::MAP_KEY_VALUE, false)]
    {
        for repetition in [REQUIRED, OPTIONAL] {
            let converted_name = CONVERTED.get(usize::from(code)).unwrap_or(&"None");
            let logical_name = if by_logical { "MAP" } else { "None" };
            let title =
                format!("MAP by converted {converted_name} and logical {logical_name}, of repetition {repetition}");
            let given = |node: Node| {
                let logical = if by_logical { logical::MAP } else { logical::NONE };
                node.converted(code).logical(logical).repetition(repetition)
            };
            vectors.field(title.clone(), given(map([entry()])));
            vectors.field(title + ", with a value", given(map_to(leaf(BYTE_ARRAY).repetition(OPTIONAL))));
        }
    }
    for repetition in [REQUIRED, OPTIONAL] {
        vectors.field(format!("MAP value of repetition {repetition}"), map_to(int32().repetition(repetition)));
        let fields = [group([int32(), repeated()]), group([int32()]).repetition(repetition)];
        vectors.field(format!("MAP group value of repetition {repetition}"), map([key_value(fields)]));
    }
    vectors.field("MAP value is a LIST", map_to(list([layer([int32()])])));
    vectors.field("MAP value is a MAP", map_to(map_to(int32())));
    vectors.field("MAP key is a LIST", map([key_value([list([repeated()]), int32()])]));
    for count in [2, 3, 15, 16] {
        vectors.tree(format!("{count} maps nested in keys"), root([nested_maps(count)]));
    }
    let many = || group((0..6).map(|_| group([int32(), int32()])));
    vectors.field("MAP key of many nodes", map([key_value([many(), int32().repetition(OPTIONAL)])]));
    vectors.field("MAP key of many nodes, value repeated", map([key_value([many(), repeated()])]));
}

fn map_faults(vectors: &mut Vectors) {
    for (repetition, word) in [(REPEATED, "repeated"), (NONE, "without repetition")] {
        vectors.field(format!("MAP {word}"), map_to(int32()).repetition(repetition));
        vectors.field(format!("MAP key {word}"), map([key_value([int32().repetition(repetition), int32()])]));
        vectors.field(format!("MAP value {word}"), map_to(int32().repetition(repetition)));
    }
    let optional = || int32().repetition(OPTIONAL);
    vectors.field("MAP key optional", map([key_value([optional(), int32()])]));
    vectors.field("MAP key optional, no value", map([key_value([optional()])]));
    vectors.field("MAP without children", map([]));
    vectors.field("MAP with two children", map([entry(), entry()]));
    vectors.field("MAP with a second child that is not repeated", map([entry(), int32()]));
    for repetition in [REQUIRED, OPTIONAL, NONE] {
        let child = key_value([int32(), int32()]).repetition(repetition);
        vectors.field(format!("MAP child of repetition {repetition}"), map([child]));
    }
    vectors.field("MAP child a leaf", map([repeated()]));
    vectors.field("MAP child a leaf with two children", map([repeated().having([int32(), int32()])]));
    vectors.field("MAP child without fields", map([key_value([])]));
    vectors.field("MAP child of three fields", map([key_value([int32(), int32(), int32()])]));
    vectors.field("MAP child a LIST", map([list([layer([int32()])]).repetition(REPEATED)]));
    vectors.field("MAP child a MAP", map([map([entry()]).repetition(REPEATED)]));
    vectors.field("MAP on a leaf", int32().logical(logical::MAP));
}

fn key_values(vectors: &mut Vectors) {
    let marked = |node: Node| node.converted(converted::MAP_KEY_VALUE).logical(logical::NONE);
    let layer_of = |fields: Vec<Node>| marked(key_value(fields));
    let pair = || layer_of(vec![int32(), int32()]);
    let single = || layer_of(vec![int32()]);
    let marked_map = |child: Node| marked(map([child]));
    vectors.field("MAP_KEY_VALUE in a MAP", map([pair()]));
    let by_converted = map([single()]).converted(converted::MAP).logical(logical::NONE);
    vectors.field("MAP_KEY_VALUE in a MAP by converted", by_converted);
    vectors.field("MAP_KEY_VALUE elsewhere", marked(map_to(int32())));
    vectors.field("MAP_KEY_VALUE in MAP_KEY_VALUE", marked_map(pair()));
    vectors.field("MAP_KEY_VALUE in that, a key", marked_map(layer_of(vec![marked_map(entry()), int32()])));
    vectors
        .field("MAP_KEY_VALUE in that, a key with another", marked_map(layer_of(vec![marked_map(single()), int32()])));
    let optional = marked_map(entry()).repetition(OPTIONAL);
    vectors.field("MAP_KEY_VALUE in that, a value", map([layer_of(vec![int32(), optional])]));
    let deep = marked_map(layer_of(vec![int32(), marked_map(layer_of(vec![int32(), marked_map(single())]))]));
    vectors.field("MAP_KEY_VALUE four deep", deep);
    vectors.field("MAP_KEY_VALUE elsewhere, repeated", pair());
    let marked_leaf = || int32().converted(converted::MAP_KEY_VALUE);
    vectors.field("MAP_KEY_VALUE on a key", map([key_value([marked_leaf()])]));
    vectors.field("MAP_KEY_VALUE on a group key of no map", map([key_value([marked(group([int32()]))])]));
    vectors.field("MAP_KEY_VALUE on a leaf", marked_leaf());
    vectors.field("MAP_KEY_VALUE on a list layer", list([pair()]));
    vectors.field("MAP_KEY_VALUE on an element", list([layer([marked_map(entry())])]));
    vectors.field("MAP_KEY_VALUE on a layer and its key", map([layer_of(vec![group([single()])])]));
    vectors.field("MAP_KEY_VALUE on a leaf child of a MAP", map([marked_leaf().repetition(REPEATED)]));
    vectors.field("MAP_KEY_VALUE below a leaf MAP", int32().converted(converted::MAP).having([single()]));
    vectors.tree("MAP_KEY_VALUE on the root", marked(root([entry()])));
    vectors.tree("MAP_KEY_VALUE on the root's child", root([marked_map(entry())]));
}

fn two_faults(vectors: &mut Vectors) {
    let disagreeing = || int32().converted(converted::UTF8).logical(logical::DATE);
    let utf8 = || int32().converted(converted::UTF8);
    let decimal = || int32().logical(logical::DECIMAL);
    let plain_list = || list([layer([int32()])]);
    vectors.field("8 and 9", disagreeing().length(1));
    vectors.field("8 and 10", utf8().length(1));
    vectors.field("8 and 11", decimal().length(1));
    vectors.field("8 and 12", plain_list().repetition(NONE));
    vectors.field("8 and 13", map([entry()]).length(1).repetition(REPEATED));
    let on_boolean = leaf(BOOLEAN).converted(converted::UTF8).logical(logical::DATE);
    vectors.field("9 and 10", on_boolean);
    vectors.field("9 and 11", decimal().converted(converted::DATE));
    vectors.field("9 and 12", plain_list().logical(logical::MAP).repetition(REPEATED));
    vectors.field("9 and 13", map([int32()]).converted(converted::LIST));
    vectors.field("10 and 11", leaf(BOOLEAN).logical(logical::DECIMAL));
    vectors.field("10 and 12", list([int32()]).parameters(1, 0));
    vectors.field("10 and 13", map([int32()]).parameters(0, 1));
    vectors.field("12, then 8 at its child", list([layer([int32()]).repetition(NONE)]));
    vectors.field("12, then 10 at its child", list([leaf(BOOLEAN).converted(converted::UTF8)]));
    vectors.field("8 at a child of a right LIST", list([layer([int32()]).length(1)]));
    let long = || int32().length(1);
    vectors.fields("8, then 12", [long(), list([int32()])]);
    vectors.fields("12, then 8", [list([int32()]), long()]);
    vectors.fields("13, then 12", [map([int32()]), list([int32()])]);
    vectors.fields("12, then 13", [list([int32()]), map([int32()])]);
    vectors.fields("11, then 9", [decimal(), disagreeing()]);
    vectors.field("13 at a map, 12 in its key", map([key_value([list([int32()]), repeated()])]));
    vectors.field("10 in the key of a map, 9 in its value", map([key_value([utf8(), disagreeing()])]));
    vectors.fields("8 deep, then 8 not deep", [group([group([long()])]), long()]);
    vectors.tree("8 at the root, 8 at a leaf", root([long()]).repetition(OPTIONAL));
    vectors.tree("10 at the root, 8 at a leaf", root([long()]).parameters(1, 0));
}

fn random_trees(vectors: &mut Vectors) {
    let mut random = Random::new(1);
    for n in 0..240 {
        let size = random.pick(&[2, 4, 6, 10, 15, 30, 60]);
        vectors.sheet(format!("random tree {n}"), sheet_of_all(&random_nodes(&mut random, size)));
    }
    for n in 0..480 {
        let size = random.pick(&[2, 4, 6, 6, 10, 15, 30]);
        let mut nodes = random_nodes(&mut random, size);
        for _ in 0..random.pick(&[1, 1, 1, 2, 3]) {
            damage(&mut random, &mut nodes);
        }
        vectors.sheet(format!("damaged tree {n}"), sheet_of_all(&nodes));
    }
}
