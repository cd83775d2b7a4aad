//! Random trees that keep every rule, and harm done to their slots.

use independent::annotation::Logical;
use independent::codes::physical::{BYTE_ARRAY, FIXED, GROUP, INT32, INT64};
use independent::codes::repetition::{self, OPTIONAL, REPEATED, REQUIRED};
use independent::codes::{converted, logical};
use independent::decimal::greatest_precision;
use independent::sheet::MAX_NODES;
use independent::timestamp::Unit;

use crate::nodes::{group, key_value, layer, leaf, list, map, root, Node};
use crate::random::Random;

const SINGLE: [u8; 2] = [REQUIRED, OPTIONAL];
const ANY: [u8; 3] = [REQUIRED, OPTIONAL, REPEATED];
const NAMES: [&str; 10] =
    ["a", "bb", "list", "array", "x_tuple", "element", "key", "value", "long name of a field", "g_tuple"];

/// Every logical type for a leaf, with every parameter.
pub fn logical_types() -> Vec<Logical> {
    let mut types = Vec::new();
    for code in (logical::STRING..=logical::UUID).filter(|code| ![logical::MAP, logical::LIST].contains(code)) {
        for a in [0, 1, 2, 3, 8, 16, 32, 64] {
            types.extend([0, 1].into_iter().filter_map(|b| Logical::from_code(code, a, b)));
        }
    }
    types
}

/// The physical types that a leaf's logical type may stand on.
pub fn physical_types(logical: Logical) -> Vec<u8> {
    match logical {
        Logical::Integer { bit_width: 64, .. } => vec![INT64],
        Logical::Integer { .. } | Logical::Time { unit: Unit::Millis, .. } | Logical::Date => vec![INT32],
        Logical::Time { .. } | Logical::Timestamp { .. } => vec![INT64],
        Logical::Uuid => vec![FIXED],
        Logical::Unknown => (0..=FIXED).collect(),
        Logical::Decimal => vec![INT32, INT64, BYTE_ARRAY, FIXED],
        _ => vec![BYTE_ARRAY],
    }
}

/// The nodes of a random tree of about so many, which keeps every rule.
pub fn random_nodes(random: &mut Random, size: usize) -> Vec<Node> {
    loop {
        let tree = root(random_fields(random, size, 1, 1));
        let nodes = tree.listing();
        if nodes.len() <= MAX_NODES {
            return nodes.into_iter().map(|node| node.clone().claiming(node.claimed()).having([])).collect();
        }
    }
}

/// Fields at a depth, at least so many of them, of about so many nodes.
fn random_fields(random: &mut Random, size: usize, depth: usize, least: usize) -> Vec<Node> {
    let mut fields = Vec::new();
    let mut left = size;
    while left > 0 || fields.len() < least {
        let part = random.between(1, left.max(1));
        let repetition = random.pick(&ANY);
        fields.push(random_field(random, part, depth, repetition));
        left = left.saturating_sub(part);
    }
    fields
}

fn random_field(random: &mut Random, size: usize, depth: usize, repetition: u8) -> Node {
    // A list or a map is three deep and its element, key or value may be a group.
    let made = if size <= 1 || depth > 28 {
        random_leaf(random, repetition)
    } else if size >= 3 && repetition != REPEATED && random.percent(35) {
        return random_list(random, size, depth, repetition);
    } else if size >= 3 && repetition != REPEATED && random.percent(50) {
        random_map(random, size, depth, repetition)
    } else {
        group(random_fields(random, size - 1, depth + 1, 1)).repetition(repetition)
    };
    made.named(random.pick(&NAMES))
}

fn random_leaf(random: &mut Random, repetition: u8) -> Node {
    let form = random.below(6);
    if form == 0 {
        let made = leaf(random.pick(&[0, 1, 2, 3, 4, 5, 6, 7])).repetition(repetition);
        let length = random.pick(&[1, 2, 16, 300, i32::MAX]);
        return if made.physical == FIXED { made.length(length) } else { made };
    }
    if form == 1 {
        return leaf(FIXED).length(12).converted(converted::INTERVAL).repetition(repetition);
    }
    let logical = random.pick(&logical_types());
    let mut made = leaf(random.pick(&physical_types(logical))).repetition(repetition);
    if logical == Logical::Decimal {
        made = random_digits(random, made);
    }
    // The annotation stands as its converted type alone where that means the same, or as the logical type, or as both.
    let image = logical.forward();
    let alone = image.filter(|&code| Logical::backward(code) == Some(logical));
    match (form, alone, image) {
        (2 | 3, Some(code), _) => made.converted(code),
        (4, _, Some(code)) => logically(made, logical).converted(code),
        _ => logically(made, logical),
    }
}

fn logically(node: Node, logical: Logical) -> Node {
    let (a, b) = logical.parameters();
    node.logical(logical.code()).parameters(a, b)
}

/// Precision and scale that a DECIMAL on the node's physical type may have.
fn random_digits(random: &mut Random, node: Node) -> Node {
    let length = random.pick(&[1, 2, 3, 4, 8, 16, 17, 256]);
    let (node, most) = match node.physical {
        INT32 => (node, 9),
        INT64 => (node, 18),
        FIXED => (node.length(length), greatest_precision(length as usize).expect("a length of the table") as usize),
        _ => (node, random.pick(&[1, 38, 1000, i32::MAX as usize])),
    };
    let precision = random.between(1, most);
    node.digits(precision as i32, random.below(precision) as i32)
}

fn random_list(random: &mut Random, size: usize, depth: usize, repetition: u8) -> Node {
    let name = random.pick(&NAMES);
    let tuple = format!("{name}_tuple");
    let child = match random.below(4) {
        0 => random_leaf(random, REPEATED),
        1 => layer(random_fields(random, size - 2, depth + 2, 2)).named(random.pick(&NAMES)),
        2 => {
            let repetition = random.pick(&ANY);
            layer([random_field(random, size - 2, depth + 2, repetition)])
                .named(random.pick(&["array", tuple.as_str()]))
        }
        _ => {
            let repetition = random.pick(&SINGLE);
            let other = random.pick(&["list", "y_tuple", "bag", "Array", "_tuple"]);
            layer([random_field(random, size - 2, depth + 2, repetition)]).named(other)
        }
    };
    let made = list([child]).repetition(repetition).named(name);
    match random.below(3) {
        0 => made,
        1 => made.converted(converted::NONE).logical(logical::LIST),
        _ => made.logical(logical::LIST),
    }
}

fn random_map(random: &mut Random, size: usize, depth: usize, repetition: u8) -> Node {
    let part = random.between(1, (size - 2).max(1));
    let mut fields = vec![random_field(random, part, depth + 2, REQUIRED)];
    if random.percent(80) {
        let repetition = random.pick(&SINGLE);
        fields.push(random_field(random, (size - 2).saturating_sub(part), depth + 2, repetition));
    }
    let marked = random.pick(&[converted::NONE, converted::MAP_KEY_VALUE]);
    let made = map([key_value(fields).converted(marked)]).repetition(repetition);
    match random.below(4) {
        0 => made,
        1 => made.converted(converted::MAP),
        2 => made.logical(logical::NONE).converted(converted::MAP),
        _ => made.logical(logical::NONE).converted(converted::MAP_KEY_VALUE),
    }
}

/// Does a random harm to the slots of a sheet, half the time at a LIST or MAP, its layer or what stands there.
pub fn damage(random: &mut Random, nodes: &mut Vec<Node>) {
    let nested: Vec<usize> =
        (0..nodes.len()).filter(|&k| (k.saturating_sub(2)..=k).any(|k| is_nested(&nodes[k]))).collect();
    let decimals: Vec<usize> = (0..nodes.len()).filter(|&k| is_decimal(&nodes[k])).collect();
    let mut one_of = |from: &[usize]| if from.is_empty() { random.below(nodes.len()) } else { random.pick(from) };
    let (any, near, digits, other) = (one_of(&[]), one_of(&nested), one_of(&decimals), one_of(&[]));
    let at = if random.percent(50) { near } else { any };
    let node = &mut nodes[at];
    match random.below(16) {
        0 | 1 => node.repetition = random.pick(&[REQUIRED, OPTIONAL, REPEATED, repetition::NONE]),
        2 => node.converted = if random.percent(20) { converted::NONE } else { random.below(22) as u8 },
        3 => node.logical = random.pick(&[0, 1, 2, 3, 4, 5, 6, 7, 8, 10, 11, 12, 13, 14]),
        4 => node.a = random.pick(&[0, 1, 2, 3, 8, 16, 32, 64]),
        5 => node.b = random.pick(&[0, 1, 2]),
        6 => {
            let claimed = node.claimed();
            node.claim = Some(random.pick(&[claimed.saturating_sub(1), claimed + 1, claimed + 2]));
        }
        7 => node.length = random.pick(&[0, 1, 12, 16, 257, -1]),
        8 => nodes[digits].scale = random.pick(&[0, 1, 5, -1]),
        9 => nodes[digits].precision = random.pick(&[0, 1, 9, 10, 19, 617]),
        10 => node.name = random.pick(&["array", "x_tuple", "a_tuple", "list_tuple", "other"]).into(),
        11 => node.physical = random.pick(&[0, 1, 2, 3, 4, 5, 6, 7, GROUP]),
        12 if nodes.len() > 1 => drop(nodes.remove(at)),
        12 | 13 if nodes.len() < MAX_NODES => nodes.insert(other, nodes[at].clone()),
        _ => nodes.swap(at, other),
    }
}

/// Whether a node is annotated as a LIST or a MAP.
fn is_nested(node: &Node) -> bool {
    matches!(node.converted, converted::LIST | converted::MAP | converted::MAP_KEY_VALUE)
        || matches!(node.logical, logical::LIST | logical::MAP)
}

fn is_decimal(node: &Node) -> bool {
    node.converted == converted::DECIMAL || node.logical == logical::DECIMAL
}
