//! Sheets of any number of nodes in four shapes, of columns in any order, and of leaves that are all alike.

use independent::codes::{converted, logical, physical, repetition};
use independent::sheet::{self, Slot};
use independent::tree::MAX_DEPTH;

/// Makes a sheet of so many nodes.
type Maker = fn(usize) -> Vec<u8>;

/// The shapes, each with what makes its sheets.
pub const SHAPES: [(&str, Maker); 4] =
    [("flat columns", flat), ("lists", lists), ("maps in keys", maps_in_keys), ("chains 32 deep", chains)];

/// A slot with its own name.
struct Node {
    physical: u8,
    repetition: u8,
    annotation: [u8; 4],
    type_length: i32,
    digits: [i32; 2],
    children: u16,
    name: String,
}

const NO_ANNOTATION: [u8; 4] = [converted::NONE, logical::NONE, 0, 0];

/// Nodes in listing order, the root first.
struct Listing {
    nodes: Vec<Node>,
}

impl Listing {
    fn new() -> Self {
        let mut listing = Listing { nodes: Vec::new() };
        listing.push(physical::GROUP, repetition::NONE, NO_ANNOTATION, 0, "schema".into());
        listing
    }

    fn push(&mut self, physical: u8, repetition: u8, annotation: [u8; 4], children: u16, name: String) {
        let digits = [0, 0];
        self.nodes.push(Node { physical, repetition, annotation, type_length: 0, digits, children, name });
    }

    fn group(&mut self, repetition: u8, annotation: [u8; 4], children: u16, name: String) {
        self.push(physical::GROUP, repetition, annotation, children, name);
    }

    /// The next of the columns, one after the other.
    fn column(&mut self, at: usize, repetition: u8) {
        let column = &COLUMNS[at % COLUMNS.len()];
        self.push(column.physical, repetition, column.annotation, 0, name(at));
        let node = self.nodes.last_mut().expect("it was pushed");
        node.type_length = column.type_length;
        node.digits = column.digits;
    }

    /// A field of the root, which claims it.
    fn claim(&mut self) {
        self.nodes[0].children += 1;
    }

    fn sheet(&self) -> Vec<u8> {
        let slots: Vec<Slot> = self.nodes.iter().map(slot).collect();
        sheet::assemble(&slots)
    }
}

fn slot(node: &Node) -> Slot<'_> {
    let [converted, logical, a, b] = node.annotation;
    let [precision, scale] = node.digits;
    Slot {
        physical: node.physical,
        repetition: node.repetition,
        converted,
        logical,
        a,
        b,
        children: node.children,
        type_length: node.type_length,
        scale,
        precision,
        name_length: node.name.len() as u8,
        name: node.name.as_bytes(),
    }
}

/// A leaf's type.
struct Column {
    physical: u8,
    type_length: i32,
    annotation: [u8; 4],
    /// Precision and scale.
    digits: [i32; 2],
}

const fn column(physical: u8, type_length: i32, annotation: [u8; 4], digits: [i32; 2]) -> Column {
    Column { physical, type_length, annotation, digits }
}

/// Both annotations, either of them, or none, on every physical type.
const COLUMNS: [Column; 18] = {
    use converted as c;
    use logical as l;
    use physical as p;
    [
        column(p::BYTE_ARRAY, 0, [c::UTF8, l::STRING, 0, 0], [0, 0]),
        column(p::INT64, 0, NO_ANNOTATION, [0, 0]),
        column(p::FIXED, 16, [c::DECIMAL, l::DECIMAL, 0, 0], [38, 10]),
        column(p::INT64, 0, [c::TIMESTAMP_MICROS, l::NONE, 0, 0], [0, 0]),
        column(p::INT32, 0, [c::NONE, l::INTEGER, 32, 1], [0, 0]),
        column(p::DOUBLE, 0, NO_ANNOTATION, [0, 0]),
        column(p::INT32, 0, [c::DATE, l::DATE, 0, 0], [0, 0]),
        column(p::FIXED, 16, [c::NONE, l::UUID, 0, 0], [0, 0]),
        column(p::BYTE_ARRAY, 0, [c::UTF8, l::NONE, 0, 0], [0, 0]),
        column(p::INT64, 0, [c::NONE, l::TIME, 3, 1], [0, 0]),
        column(p::BOOLEAN, 0, NO_ANNOTATION, [0, 0]),
        column(p::INT64, 0, [c::DECIMAL, l::NONE, 0, 0], [18, 2]),
        column(p::INT32, 0, [c::UINT_8, l::INTEGER, 8, 0], [0, 0]),
        column(p::BYTE_ARRAY, 0, [c::ENUM, l::NONE, 0, 0], [0, 0]),
        column(p::INT64, 0, [c::TIMESTAMP_MILLIS, l::TIMESTAMP, 1, 1], [0, 0]),
        column(p::FIXED, 12, [c::INTERVAL, l::NONE, 0, 0], [0, 0]),
        column(p::BYTE_ARRAY, 0, [c::JSON, l::JSON, 0, 0], [0, 0]),
        column(p::FLOAT, 0, NO_ANNOTATION, [0, 0]),
    ]
};

/// Names of several lengths.
pub fn name(at: usize) -> String {
    const WORDS: [&str; 7] =
        ["id", "name", "amount", "created_at", "quantity", "address_line", "a_rather_long_column_name"];
    format!("{}_{at}", WORDS[at % WORDS.len()])
}

/// A root with columns.
fn flat(nodes: usize) -> Vec<u8> {
    columns(&(0..nodes - 1).collect::<Vec<_>>(), name)
}

/// A root with columns of these numbers, each of the name that its number has.
pub fn columns(numbers: &[usize], name: fn(usize) -> String) -> Vec<u8> {
    let mut listing = Listing::new();
    for &at in numbers {
        listing.claim();
        listing.column(at, (at % 2) as u8);
        listing.nodes.last_mut().expect("it was pushed").name = name(at);
    }
    listing.sheet()
}

/// A root with leaves of BYTE_ARRAY that all have one annotation.
pub fn leaves(annotation: [u8; 4], nodes: usize) -> Vec<u8> {
    let mut listing = Listing::new();
    for at in 1..nodes {
        listing.claim();
        listing.push(physical::BYTE_ARRAY, (at % 2) as u8, annotation, 0, name(at));
    }
    listing.sheet()
}

/// A root with lists of three levels, and columns for what is left.
fn lists(nodes: usize) -> Vec<u8> {
    const LIST: usize = 3;
    let mut listing = Listing::new();
    for at in 0..(nodes - 1) / LIST {
        listing.claim();
        let annotation = [[converted::LIST, logical::LIST, 0, 0], [converted::LIST, logical::NONE, 0, 0]][at % 2];
        listing.group(repetition::OPTIONAL, annotation, 1, name(at));
        listing.group(repetition::REPEATED, NO_ANNOTATION, 1, "list".into());
        listing.column(at, repetition::OPTIONAL);
    }
    while listing.nodes.len() < nodes {
        listing.claim();
        listing.column(0, repetition::REQUIRED);
    }
    listing.sheet()
}

/// A root with maps whose key is a map, whose key is again a map, as deep as a node may be.
fn maps_in_keys(nodes: usize) -> Vec<u8> {
    // Fifteen maps within each other with a value each, and a group with a leaf as the innermost key, at depth 32.
    const DEEPEST: usize = 15 * 3 + 2;
    let mut listing = Listing::new();
    while listing.nodes.len() < nodes {
        listing.claim();
        let left = nodes - listing.nodes.len();
        key(&mut listing, left.min(DEEPEST));
    }
    listing.sheet()
}

/// A required field of so many nodes: a map whose key is such a field of three fewer, where they are enough.
fn key(listing: &mut Listing, nodes: usize) {
    let at = listing.nodes.len();
    if nodes == 1 {
        listing.column(at, repetition::REQUIRED);
        return;
    }
    if nodes == 2 {
        listing.group(repetition::REQUIRED, NO_ANNOTATION, 1, name(at));
        listing.column(at, repetition::OPTIONAL);
        return;
    }
    let annotation = [[converted::MAP, logical::MAP, 0, 0], [converted::MAP, logical::NONE, 0, 0]][at % 2];
    listing.group(repetition::REQUIRED, annotation, 1, name(at));
    let layer = [[converted::MAP_KEY_VALUE, logical::NONE, 0, 0], NO_ANNOTATION][at % 2];
    // Three nodes leave none for a value.
    let fields = if nodes == 3 { 1 } else { 2 };
    listing.group(repetition::REPEATED, layer, fields, "key_value".into());
    key(listing, nodes - 1 - usize::from(fields));
    if fields == 2 {
        listing.column(at, repetition::OPTIONAL);
    }
}

/// A root with groups of one field each, one within the other down to a column.
fn chains(nodes: usize) -> Vec<u8> {
    let mut listing = Listing::new();
    while listing.nodes.len() < nodes {
        listing.claim();
        let groups = (nodes - listing.nodes.len()).min(MAX_DEPTH) - 1;
        for _ in 0..groups {
            let at = listing.nodes.len();
            listing.group((at % 2) as u8, NO_ANNOTATION, 1, name(at));
        }
        listing.column(listing.nodes.len(), repetition::REQUIRED);
    }
    listing.sheet()
}
