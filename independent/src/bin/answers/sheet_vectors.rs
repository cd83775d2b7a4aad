//! Sheets at every bound of refusals 1 to 4, with a slot, a name and a comparison of names asked of each.

use std::fmt::Write;

use independent::codes::{converted, logical, physical, repetition};
use independent::sheet::{self, slot_start, Sheet, Slot, BLOCK, MAX_NODES, SLOTS};

use crate::bytes::{put, put_size, Reader};
use crate::nodes::{changed, leaf, root, sheet_of_nodes, Node};
use crate::sheet_slots::numbers;

/// The vectors as the program reads them: their number; then for each the length of the sheet, a node, another node, the
/// length of a text, the text and the sheet.
#[derive(Default)]
struct Vectors {
    count: u32,
    bytes: Vec<u8>,
}

impl Vectors {
    fn add(&mut self, sheet: &[u8], node: u32, other: u32, text: &[u8]) {
        self.count += 1;
        put_size(&mut self.bytes, sheet.len());
        put(&mut self.bytes, node);
        put(&mut self.bytes, other);
        put_size(&mut self.bytes, text.len());
        self.bytes.extend(text);
        self.bytes.extend(sheet);
    }

    fn sheet(&mut self, sheet: &[u8]) {
        self.at(sheet, 0);
    }

    fn at(&mut self, sheet: &[u8], node: u32) {
        self.add(sheet, node, 0, b"");
    }
}

pub fn input() -> Vec<u8> {
    let mut vectors = Vectors::default();
    for part in [lengths, checks, headers, totals, codes, unused, extremes, names] {
        part(&mut vectors);
    }
    let mut bytes = vectors.count.to_le_bytes().to_vec();
    bytes.extend(vectors.bytes);
    bytes
}

pub fn answers(edition: u32, input: &[u8]) -> Vec<u8> {
    let mut lines = String::new();
    let mut reader = Reader::new(input);
    for _ in 0..reader.u32() {
        let length = reader.size();
        let (node, other) = (reader.size(), reader.size());
        let text_length = reader.size();
        let text = reader.take(text_length);
        let sheet = reader.take(length);
        match Sheet::open(edition, sheet) {
            Ok(opened) => write!(lines, "nodes {}", opened.node_count()).unwrap(),
            Err(refusal) => write!(lines, "{refusal}").unwrap(),
        }
        let (start, slot) = sheet::slot_at(sheet, node).unwrap_or((0, Slot::UNUSED));
        let is = slot.name == text;
        let (_, other) = sheet::slot_at(sheet, other).unwrap_or((0, Slot::UNUSED));
        let with = slot.name == [other.name, text].concat();
        writeln!(
            lines,
            " slot {} name {start} {} is {} with {}",
            numbers(&slot),
            slot.name.len(),
            u8::from(is),
            u8::from(with)
        )
        .unwrap();
    }
    lines.into()
}

/// A byte array named n: physical 6, as most nodes here.
fn plain() -> Node {
    leaf(physical::BYTE_ARRAY).named("n")
}

/// A sheet of a root and leaves.
fn flat(count: usize) -> Vec<u8> {
    let mut nodes = vec![root([]).claiming(count as u16 - 1)];
    nodes.extend((1..count).map(|k| plain().named(format!("n{k}"))));
    listed(&nodes)
}

fn listed(nodes: &[Node]) -> Vec<u8> {
    sheet_of_nodes(&nodes.iter().collect::<Vec<_>>())
}

/// A flat sheet in which every header tells another total.
fn with_total(count: usize, total: u16) -> Vec<u8> {
    let mut sheet = flat(count);
    for block in sheet.chunks_exact_mut(BLOCK) {
        block[4..6].copy_from_slice(&total.to_le_bytes());
    }
    sheet::renew_checks(&mut sheet);
    sheet
}

/// The sheet with something added to the byte at a place, and its checks left as they were.
fn spoilt(sheet: &[u8], at: usize, add: u8) -> Vec<u8> {
    let mut spoilt = sheet.to_vec();
    spoilt[at] = spoilt[at].wrapping_add(add);
    spoilt
}

/// The block with this check stored.
fn checked(block: &[u8], check: u16) -> Vec<u8> {
    [&block[..BLOCK - 2], &check.to_le_bytes()].concat()
}

fn lengths(vectors: &mut Vectors) {
    let (one, full) = (flat(1), flat(MAX_NODES));
    for sheet in [&[], &one[..1], &one[..511], &one[..]] {
        vectors.sheet(sheet);
    }
    vectors.sheet(&[&one[..], &[0]].concat());
    vectors.sheet(&[0; BLOCK]);
    vectors.sheet(&full[..full.len() - 1]);
    vectors.sheet(&[0; 65536]);
    vectors.at(&full, 895);
    vectors.at(&[full, one].concat(), 896);
}

fn checks(vectors: &mut Vectors) {
    let sheet = flat(17);
    for block in 0..3 {
        for at in [0, 5, 509, 510, 511] {
            vectors.sheet(&spoilt(&sheet, block * BLOCK + at, 1));
        }
        vectors.sheet(&spoilt(&sheet, block * BLOCK + 300, 255));
    }
    vectors.sheet(&spoilt(&spoilt(&sheet, 1535, 1), BLOCK + 6, 1));
    vectors.sheet(&spoilt(&changed(&sheet, 3, &[2]), 2 * BLOCK + 100, 1));
    vectors.sheet(&spoilt(&sheet, 0, 1));
    let mut ends = [0; BLOCK];
    (ends[0], ends[509]) = (255, 255);
    vectors.sheet(&ends);
    // Document 01: byte 509 equal to 255, all others zero, gives 64,529.
    ends[0] = 0;
    vectors.sheet(&checked(&ends, 64529));
    vectors.sheet(&checked(&ends, 64528));
    for stored in [65535, 65521, 65520] {
        vectors.sheet(&checked(&flat(1), stored));
    }
    vectors.sheet(&unreduced());
}

/// A sound sheet whose check is below 15, stored as that check and 65,521.
fn unreduced() -> Vec<u8> {
    let pairs = (0..=255).flat_map(|most| (0..=255).map(move |last| (most, last)));
    let sheets = pairs.map(|(most, last)| {
        let mut name = [most; 48];
        name[47] = last;
        listed(&[root([]).named(name)])
    });
    let check = |sheet: &[u8]| u16::from_le_bytes([sheet[510], sheet[511]]);
    let found = sheets.into_iter().find(|sheet| check(sheet) < 15).expect("some name gives such a check");
    checked(&found, check(&found) + 65521)
}

fn headers(vectors: &mut Vectors) {
    let sheet = flat(17);
    for block in 0..3u8 {
        let at = usize::from(block) * BLOCK;
        for value in [block.wrapping_sub(1), block + 1, 255] {
            vectors.sheet(&changed(&sheet, at, &[value]));
        }
        vectors.sheet(&changed(&sheet, at + 1, &[1]));
        for value in [0, 1, 2, 4, 6, 8, 255] {
            vectors.sheet(&changed(&sheet, at + 2, &[value]));
        }
        for value in [0, 2, 255] {
            vectors.sheet(&changed(&sheet, at + 3, &[value]));
        }
        for value in [0, 14, 15, 16, 18, 21, 22] {
            vectors.sheet(&changed(&sheet, at + 4, &[value]));
        }
        vectors.sheet(&changed(&sheet, at + 5, &[1]));
    }
    vectors.sheet(&changed(&changed(&sheet, 2 * BLOCK + 3, &[7]), BLOCK, &[9]));
    vectors.sheet(&changed(&changed(&sheet, BLOCK + 3, &[7]), slot_start(0), &[9]));
}

fn totals(vectors: &mut Vectors) {
    vectors.sheet(&changed(&flat(1), 4, &[0]));
    vectors.sheet(&changed(&flat(1), 2, &[0, 1, 0]));
    for count in [1, 2, 6, 7, 8, 13, 14, 15, 21, 890] {
        vectors.at(&flat(count), count as u32 - 1);
    }
    for total in [6, 8] {
        vectors.sheet(&with_total(7, total));
    }
    vectors.sheet(&with_total(896, 897));
    vectors.sheet(&with_total(889, 896));
    vectors.sheet(&flat(14)[..BLOCK]);
}

fn codes(vectors: &mut Vectors) {
    let sheet = flat(10);
    let edges: [(usize, &[u8]); 5] = [
        (0, &[0, 7, 8, 9, 128, 254, 255]),
        (1, &[0, 1, 2, 3, 128, 254, 255]),
        (2, &[0, 21, 22, 128, 254, 255]),
        (3, &[0, 1, 8, 9, 10, 14, 15, 128, 255]),
        (20, &[0, 1, 2, 48, 49, 72, 255]),
    ];
    for node in [0, 6, 7, 9] {
        let mut with = |at, value| vectors.at(&changed(&sheet, slot_start(node) + at, &[value]), node as u32);
        for (at, values) in edges {
            values.iter().for_each(|&value| with(at, value));
        }
        [21, 22, 23].iter().for_each(|&at| with(at, 1));
        [26, 27, 47, 71].iter().for_each(|&at| with(at, 255));
    }
    vectors.sheet(&changed(&changed(&sheet, slot_start(8), &[8]), slot_start(3) + 71, &[1]));
    let codes = || 0..=255u8;
    let mut nodes = vec![root([])];
    nodes.extend(codes().filter(|&code| physical::is_listed(code)).map(|physical| Node { physical, ..plain() }));
    vectors.at(&listed(&nodes), 9);
    nodes.truncate(1);
    nodes.extend(codes().filter(|&code| converted::is_listed(code)).map(|code| plain().converted(code)));
    vectors.at(&listed(&nodes), 22);
    nodes.truncate(1);
    nodes.extend(codes().filter(|&code| logical::is_listed(code)).map(|code| plain().logical(code)));
    vectors.at(&listed(&nodes), 14);
}

fn unused(vectors: &mut Vectors) {
    let sheet = flat(10);
    for node in [10, 11, 13] {
        for at in [0, 20, 40, 71] {
            vectors.at(&changed(&sheet, slot_start(node) + at, &[1]), node as u32);
        }
        vectors.at(&changed(&sheet, slot_start(node), &plain().slot().to_bytes()), node as u32);
    }
    vectors.sheet(&changed(&changed(&sheet, slot_start(12), &[1]), slot_start(9) + 1, &[9]));
    vectors.sheet(&changed(&changed(&sheet, slot_start(13), &[1]), slot_start(11) + 1, &[9]));
}

fn extremes(vectors: &mut Vectors) {
    let numbers = [0, 1, -1, i32::MAX, i32::MIN, 256, -256, 16777216];
    let children = [0, 1, 255, 256, 65535, 32768, 513, 4096];
    for n in 0..numbers.len() {
        let before = |steps| numbers[(n + numbers.len() - steps) % numbers.len()];
        let node = plain().parameters(n as u8, 255 - n as u8).claiming(children[n]);
        vectors.at(&listed(&[root([]), node.length(numbers[n]).digits(before(2), before(1))]), 1);
    }
}

fn names(vectors: &mut Vectors) {
    let word = b"abcdefghijklmnopqrstuvwxyz0123456789ABCDEFGHIJKL";
    let tuple = [&word[..42], b"_tuple"].concat();
    let names: [&[u8]; 15] = [
        b"r",
        b"parts",
        b"parts_tuple",
        b"array",
        b"parts_tupl",
        b"part",
        word,
        &word[..47],
        &word[..42],
        &tuple,
        b"a\0b",
        b"a",
        b"\xFF\xFE",
        b"_tuple",
        b"parts_tuplf",
    ];
    let mut nodes = vec![root([]).named(names[0])];
    nodes.extend(names[1..].iter().map(|name| plain().repetition(repetition::REQUIRED).named(name)));
    let sheet = listed(&nodes);
    for (k, name) in names.iter().enumerate() {
        let node = k as u32;
        vectors.add(&sheet, node, 1, b"_tuple");
        vectors.add(&sheet, node, node, b"");
        vectors.add(&sheet, node, (node + 1) % names.len() as u32, name);
    }
    vectors.add(&sheet, 2, 5, b"s_tuple");
    vectors.add(&sheet, 2, 5, b"s_tuple_");
    vectors.add(&sheet, 9, 8, b"_tuple");
    vectors.add(&sheet, 6, 7, b"L");
    vectors.add(&sheet, 6, 7, b"K");
    vectors.add(&sheet, 6, 0, &[&word[..], b"M"].concat());
    vectors.add(&sheet, 10, 11, b"\0b");
    for node in [15, 20, 21, 22, 100, 895, 896, 897, 65536, u32::MAX] {
        vectors.add(&sheet, node, 1, b"");
        vectors.add(&sheet, 1, node, b"parts");
    }
    for size in [0, 1, 77, 78, 511, 512, 589, 590] {
        vectors.add(&sheet[..size], 0, 0, b"");
        vectors.add(&sheet[..size], SLOTS as u32, 0, &word[..42]);
    }
    for length in [0, 48, 49, 255] {
        let other = changed(&sheet, slot_start(6) + 20, &[length]);
        vectors.add(&other, 6, 6, b"");
        vectors.add(&other, 6, 6, word);
    }
}
