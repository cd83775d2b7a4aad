//! A sheet of every bound of a slot's numbers, and the list of its slots.

use independent::codes::{converted, logical, physical, repetition};
use independent::sheet::{self, Sheet};

use crate::nodes::{group, leaf, root, sheet_of_nodes, Node};

/// Seventeen nodes, so three blocks: each bound of a code and of a number, and names of 1 to 48 bytes.
fn nodes() -> Vec<Node> {
    use physical::{BOOLEAN, BYTE_ARRAY, DOUBLE, FIXED, INT32, INT64};
    use repetition::{OPTIONAL, REPEATED};
    let given = |node: Node, converted, logical, a, b| node.converted(converted).logical(logical).parameters(a, b);
    let mut nodes = vec![
        root([]).claiming(65535),
        given(leaf(BOOLEAN), converted::UTF8, logical::STRING, 255, 254)
            .claiming(1)
            .length(1)
            .digits(3, 2)
            .named("first"),
        given(leaf(FIXED).repetition(REPEATED), converted::INTERVAL, logical::UUID, 0, 1)
            .claiming(256)
            .length(i32::MIN)
            .digits(-1, i32::MAX)
            .named("every number differs"),
        given(leaf(BYTE_ARRAY).repetition(OPTIONAL), converted::NONE, logical::TIMESTAMP, 3, 0)
            .claiming(255)
            .length(i32::MAX)
            .digits(1, i32::MIN)
            .named([0]),
        given(leaf(INT32), converted::DECIMAL, logical::DECIMAL, 0, 0).digits(9, 2).named("amount"),
        given(leaf(INT64).repetition(OPTIONAL), converted::TIMESTAMP_MICROS, logical::TIMESTAMP, 2, 1).named("at"),
        given(group([]), converted::LIST, logical::LIST, 0, 0).claiming(1).named("last of its block"),
        group([]).repetition(REPEATED).claiming(1).named("list"),
        given(leaf(BYTE_ARRAY).repetition(OPTIONAL), converted::UTF8, logical::STRING, 0, 0).named("element"),
        leaf(DOUBLE).repetition(REPEATED).named((48..96).collect::<Vec<u8>>()),
    ];
    for k in 10..17u8 {
        nodes.push(leaf(k % 8).length(0).repetition(k % 3).named("x".repeat(usize::from(k) * 7 % 48 + 1)));
    }
    nodes
}

pub fn input() -> Vec<u8> {
    sheet_of_nodes(&nodes().iter().collect::<Vec<_>>())
}

pub fn answers(edition: u32, sheet: &[u8]) -> Vec<u8> {
    let opened = match Sheet::open(edition, sheet) {
        Ok(opened) => opened,
        Err(refusal) => return format!("{refusal}\n").into(),
    };
    let lines = (0..opened.node_count()).map(|node| {
        let (name, slot) = sheet::slot_at(sheet, node).expect("a used slot");
        format!("{} {name} {}\n", numbers(&slot), slot.name.len())
    });
    lines.collect::<String>().into()
}

/// The eleven numbers of a slot.
pub fn numbers(slot: &sheet::Slot) -> String {
    format!(
        "{} {} {} {} {} {} {} {} {} {} {}",
        slot.physical,
        slot.repetition,
        slot.converted,
        slot.logical,
        slot.a,
        slot.b,
        slot.children,
        slot.type_length,
        slot.scale,
        slot.precision,
        slot.name_length
    )
}
