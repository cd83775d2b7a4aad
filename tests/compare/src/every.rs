//! Every case of what has few: codes beside codes, lengths beside precisions, small trees beside one another, octets
//! beside octets, days, and boxes of special numbers.

use independent::boxes::WIDTH;
use independent::codes::physical::{BOOLEAN, BYTE_ARRAY, DOUBLE, FIXED, FLOAT, GROUP, INT32, INT64, INT96};
use independent::codes::{converted, logical, repetition};
use independent::decimal::{greatest_precision, MAX_LENGTH};
use independent::int96::{self, of_parts, SIZE};
use independent::{refusal, sheet, ROW_WIDTH};

use crate::boxes;
use crate::columns::Column;
use crate::comparison::{broken, Comparison, Difference};
use crate::int96::{from_and_back, to_and_back, DAY, FIRST_DAY, LAST_DAY};
use crate::lists;
use crate::sheets::assemble;
use crate::side::{refusal_of, shown, value_of};
use crate::trees::Slot;

#[path = "../../../independent/src/bin/answers/wide.rs"]
mod wide;

/// Physical types with a type length; 8 is in no list.
const COLUMNS: [(u8, i32); 11] = [
    (BOOLEAN, 0),
    (INT32, 0),
    (INT64, 0),
    (INT96, 0),
    (FLOAT, 0),
    (DOUBLE, 0),
    (BYTE_ARRAY, 0),
    (FIXED, 12),
    (FIXED, 16),
    (8, 0),
    (GROUP, 0),
];

/// Parameters that some logical type takes, and some that none does.
const PARAMETERS: [(u8, u8); 21] = [
    (0, 0),
    (1, 0),
    (0, 1),
    (1, 1),
    (2, 0),
    (2, 1),
    (3, 0),
    (3, 1),
    (4, 0),
    (4, 1),
    (5, 0),
    (1, 2),
    (8, 0),
    (8, 1),
    (16, 0),
    (16, 1),
    (32, 0),
    (32, 1),
    (64, 0),
    (64, 1),
    (65, 0),
];

/// Compares both sides on all of it.
pub fn run(comparison: &mut Comparison) -> Result<(), Difference> {
    codes(comparison)?;
    column_types(comparison)?;
    lengths(comparison)?;
    digits(comparison)?;
    precisions(comparison)?;
    small_trees(comparison)?;
    decimals(comparison)?;
    octets(comparison)?;
    plain_texts(comparison)?;
    julian_days(comparison)?;
    int96_bytes(comparison)?;
    boxes_of_few(comparison)?;
    points_in_boxes(comparison)
}

/// A node of a sheet: its codes and parameters, its numbers, and how many children it has.
#[derive(Clone, Copy)]
struct Node {
    physical: u8,
    repetition: u8,
    converted: u8,
    logical: u8,
    parameters: (u8, u8),
    type_length: i32,
    scale: i32,
    precision: i32,
    children: u16,
}

const PLAIN: Node = Node {
    physical: INT32,
    repetition: repetition::REQUIRED,
    converted: converted::NONE,
    logical: logical::NONE,
    parameters: (0, 0),
    type_length: 0,
    scale: 0,
    precision: 0,
    children: 0,
};

const ROOT: Node = Node { physical: GROUP, repetition: repetition::NONE, children: 1, ..PLAIN };

impl Node {
    fn slot(&self) -> Slot {
        let mut slot = [0; sheet::SLOT];
        let (a, b) = self.parameters;
        slot[..6].copy_from_slice(&[self.physical, self.repetition, self.converted, self.logical, a, b]);
        slot[6..8].copy_from_slice(&self.children.to_le_bytes());
        for (at, number) in [8, 12, 16].into_iter().zip([self.type_length, self.scale, self.precision]) {
            slot[at..at + 4].copy_from_slice(&number.to_le_bytes());
        }
        slot[20] = 1;
        slot[24] = b'n';
        slot
    }
}

/// Resolves and rewrites the sheet of these nodes.
fn judged(comparison: &mut Comparison, nodes: &[Node]) -> Result<(), Difference> {
    let sheet = assemble(&nodes.iter().map(Node::slot).collect::<Vec<_>>());
    comparison.resolve_in_all(&sheet, ROW_WIDTH * nodes.len())?;
    comparison.rewrite_in_all(&sheet, sheet.len(), 0)
}

/// Every converted code and one outside the list, beside every logical code and those between and behind them, with
/// every parameter and on every physical type; on a group also as the one child of a MAP.
fn codes(comparison: &mut Comparison) -> Result<(), Difference> {
    let layer = Node { physical: GROUP, repetition: repetition::REPEATED, children: 1, ..PLAIN };
    let map = Node { physical: GROUP, logical: logical::MAP, children: 1, ..PLAIN };
    for converted in (0..=22).chain([converted::NONE]) {
        for logical in 0..=19 {
            for parameters in PARAMETERS {
                for (physical, type_length) in COLUMNS {
                    let node =
                        Node { physical, converted, logical, parameters, type_length, scale: 2, precision: 5, ..PLAIN };
                    if physical == GROUP {
                        // A group has neither length nor digits.
                        let node = Node { scale: 0, precision: 0, children: 1, ..node };
                        judged(comparison, &[ROOT, node, layer, PLAIN])?;
                        judged(comparison, &[ROOT, map, Node { repetition: repetition::REPEATED, ..node }, PLAIN])?;
                        continue;
                    }
                    judged(comparison, &[ROOT, node])?;
                    judged(comparison, &[ROOT, Node { scale: 0, precision: 0, ..node }])?;
                }
            }
        }
    }
    Ok(())
}

/// Every kind up to one that none has, with every parameter and on every physical type, as a column type: a value read,
/// and ordered.
fn column_types(comparison: &mut Comparison) -> Result<(), Difference> {
    for kind in (0..=32).chain([255, 256 + 17, 256 + 18, 1 << 31 | 17, u32::MAX]) {
        for (a, b) in PARAMETERS {
            for (physical, type_length) in COLUMNS {
                let column = [physical.into(), type_length as u32, kind, a.into(), b.into()];
                for value in [&[0; 12][..], &[0xFF; 16], b""] {
                    comparison.read_in_all(column, value, 2)?;
                }
                comparison.order_in_all(column, &[0; 12], &[0xFF; 16])?;
            }
        }
    }
    Ok(())
}

/// UUID, INTERVAL, DECIMAL and no annotation on FIXED of each length about those that they take.
fn lengths(comparison: &mut Comparison) -> Result<(), Difference> {
    for type_length in (-2..=260).chain([i32::MIN, i32::MAX]) {
        let plain = Node { physical: FIXED, type_length, ..PLAIN };
        let uuid = Node { logical: logical::UUID, ..plain };
        let interval = Node { converted: converted::INTERVAL, ..plain };
        let decimal = Node { logical: logical::DECIMAL, precision: 2, ..plain };
        for node in [plain, uuid, interval, decimal] {
            judged(comparison, &[ROOT, node])?;
        }
    }
    Ok(())
}

/// Precisions and scales of a DECIMAL at their bounds, on each physical type that takes one.
fn digits(comparison: &mut Comparison) -> Result<(), Difference> {
    let fixed = [1, 2, 4, 8, 16, 256, 257].map(|length| (FIXED, length));
    for (physical, type_length) in [(INT32, 0), (INT64, 0), (BYTE_ARRAY, 0)].into_iter().chain(fixed) {
        for precision in [i32::MIN, -1, 0, 1, 2, 3, 4, 5, 9, 10, 18, 19, 38, 39, 616, 617, i32::MAX] {
            for scale in [i32::MIN, -1, 0, 1, 2, 3, 9, 18, 38, 616, i32::MAX] {
                let by_converted =
                    Node { physical, type_length, converted: converted::DECIMAL, precision, scale, ..PLAIN };
                judged(comparison, &[ROOT, by_converted])?;
                let by_logical = Node { converted: converted::NONE, logical: logical::DECIMAL, ..by_converted };
                judged(comparison, &[ROOT, by_logical])?;
            }
        }
    }
    Ok(())
}

/// Each length of FIXED with each precision up to one that no length takes.
fn precisions(comparison: &mut Comparison) -> Result<(), Difference> {
    for type_length in 0..260 {
        for precision in 0..=617 {
            let node = Node { physical: FIXED, type_length, logical: logical::DECIMAL, precision, ..PLAIN };
            let sheet = assemble(&[ROOT.slot(), node.slot()]);
            comparison.resolve_in_all(&sheet, 2 * ROW_WIDTH)?;
        }
    }
    Ok(())
}

/// Every two trees of up to five nodes whose names are one of two, compared both ways round.
fn small_trees(comparison: &mut Comparison) -> Result<(), Difference> {
    const MOST_NODES: usize = 5;
    let sheets: Vec<Vec<u8>> = (0..MOST_NODES).flat_map(runs).map(|run| assemble(&tree_of(run))).collect();
    for (at, first) in sheets.iter().enumerate() {
        for second in &sheets[..=at] {
            lists::compare(comparison, [first, second], |needed| needed)?;
        }
    }
    Ok(())
}

/// Every run of fields that has so many nodes in all: how many fields it has, and their listings.
fn runs(nodes: usize) -> Vec<(u16, Vec<Slot>)> {
    if nodes == 0 {
        return vec![(0, Vec::new())];
    }
    let mut all = Vec::new();
    for below in 0..nodes {
        for (children, listing) in runs(below) {
            for (fields, others) in runs(nodes - 1 - below) {
                for name in [b'a', b'b'] {
                    let physical = if children > 0 { GROUP } else { INT32 };
                    let mut slot = Node { physical, children, ..PLAIN }.slot();
                    slot[24] = name;
                    all.push((fields + 1, [&[slot], &listing[..], &others].concat()));
                }
            }
        }
    }
    all
}

/// The listing of a root with a run of fields. Nodes of other numbers have other repetitions, so that it is seen which ones match.
fn tree_of((children, run): (u16, Vec<Slot>)) -> Vec<Slot> {
    let mut slots = [&[Node { children, ..ROOT }.slot()], &run[..]].concat();
    slots[1..].iter_mut().zip([0, 1, 2].into_iter().cycle()).for_each(|(slot, repetition)| slot[1] = repetition);
    slots
}

/// For each length the numbers about its greatest power of ten, its greatest number, and -x and -x - 1 of each: read in precisions about the
/// greatest, in so many bytes and with sign bytes before them, and ordered against one another and against those of other lengths.
fn decimals(comparison: &mut Comparison) -> Result<(), Difference> {
    for length in 1..=MAX_LENGTH {
        let most = greatest_precision(length).expect("a length of the table");
        let numbers = about(length, most);
        let cut = |at: usize, bytes: usize| &numbers[at % numbers.len()][2 * MAX_LENGTH - bytes..];
        for at in 0..numbers.len() {
            for before in [0, 1, 255, MAX_LENGTH - length] {
                let bytes = length + before;
                for precision in [most - 1, most, most + 1] {
                    comparison.read_in_all([6, 0, 5, precision, 0], cut(at, bytes), 2)?;
                    comparison.read_in_all([7, bytes as u32, 5, precision, 0], cut(at, bytes), 2)?;
                }
                let widest = [6, 0, 5, i32::MAX as u32, 0];
                comparison.order_in_all(widest, cut(at, bytes), cut(at, length))?;
                comparison.order_in_all(widest, cut(at, bytes), cut(at + 1, length))?;
            }
            for other in [1, 2, 4, 8, 16, 32, 64, 128, 256] {
                comparison.order_in_all([6, 0, 5, i32::MAX as u32, 0], cut(at, length), cut(at + 3, other))?;
            }
        }
    }
    Ok(())
}

/// In twice as many bytes as the longest number has.
fn about(length: usize, most: u32) -> Vec<Vec<u8>> {
    const WIDE: usize = 2 * MAX_LENGTH;
    let power = wide::power_of_ten(most, WIDE);
    let mut greatest = vec![0; WIDE];
    greatest[WIDE - length..].fill(0xFF);
    greatest[WIDE - length] = 0x7F;
    let mut numbers: Vec<Vec<u8>> = (-2..=1).map(|small| wide::plus(power.clone(), small)).collect();
    numbers.push(greatest);
    let below = numbers.iter().flat_map(|number| [wide::negated(number), wide::turned(number)]);
    numbers.extend(below.collect::<Vec<_>>());
    numbers
}

/// Every octet alone, every two, and behind every first octet of several and every second one the octets about the bounds of a tail; each
/// first, in the middle and last, among ASCII and among letters.
fn octets(comparison: &mut Comparison) -> Result<(), Difference> {
    const TAILS: [u8; 6] = [0x00, 0x7F, 0x80, 0xBF, 0xC0, 0xFF];
    for first in 0..=255 {
        placed(comparison, &[first])?;
        for second in 0..=255 {
            text(comparison, &[first, second])?;
            if first < 0xC0 {
                continue;
            }
            placed(comparison, &[first, second])?;
            for third in TAILS {
                text(comparison, &[first, second, third])?;
                for fourth in TAILS {
                    placed(comparison, &[first, second, third, fourth])?;
                }
            }
        }
    }
    Ok(())
}

fn placed(comparison: &mut Comparison, octets: &[u8]) -> Result<(), Difference> {
    text(comparison, octets)?;
    for (before, after) in [("a", "z"), ("é漢", "𝄞ö")] {
        let (before, after) = (before.as_bytes(), after.as_bytes());
        for parts in [[&[], octets, after], [before, octets, after], [before, octets, &[]]] {
            text(comparison, &parts.concat())?;
        }
    }
    Ok(())
}

/// Texts below 128 of each length that is taken by one, by eight, by 32 and by 64, with some left over, and with each other octet or letter
/// at each place.
fn plain_texts(comparison: &mut Comparison) -> Result<(), Difference> {
    for length in 0..=160 {
        let plain: Vec<u8> = (0..length).map(|at| ((0x21 + 37 * at) % 0x80) as u8).collect();
        text(comparison, &plain)?;
        for place in 0..length {
            for other in [&[0x80][..], &[0xFF], &[0xC2], "é".as_bytes(), "漢".as_bytes(), "𝄞".as_bytes()] {
                let mut bytes = plain.clone();
                bytes.splice(place..(place + other.len()).min(length), other.iter().copied());
                text(comparison, &bytes)?;
            }
        }
    }
    Ok(())
}

/// Every Julian day that has a count and some beside them, its first and its last nanosecond and the first that it has not.
fn julian_days(comparison: &mut Comparison) -> Result<(), Difference> {
    for day in FIRST_DAY - 3..=LAST_DAY + 3 {
        for of_day in [0, DAY - 1, DAY] {
            from_and_back(comparison, &of_parts(of_day, day), 1)?;
        }
    }
    Ok(())
}

/// Every byte of a value in every place of three, values of each length and counts with each output that is too short or somewhat longer.
fn int96_bytes(comparison: &mut Comparison) -> Result<(), Difference> {
    for value in [int96::value_of(0), int96::value_of(i64::MIN), [0xFF; SIZE]] {
        for at in 0..SIZE {
            for byte in 0..=255 {
                let mut other = value;
                other[at] = byte;
                from_and_back(comparison, &other, 1)?;
            }
        }
        for length in 0..=3 * SIZE {
            for lent in 0..=3 {
                from_and_back(comparison, &value.repeat(3)[..length], lent)?;
            }
        }
    }
    for count in [i64::MIN, -1, 0, i64::MAX] {
        for lent in 0..=3 * SIZE {
            to_and_back(comparison, count, lent)?;
        }
    }
    Ok(())
}

/// Numbers at which a reader of boxes may go wrong: NaN of both signs, both zeros, the least and the greatest numbers,
/// infinities, both ends of each range and the numbers beside them.
fn special_numbers() -> Vec<f64> {
    let tiny = f64::from_bits(1);
    let positive = [0.0, tiny, 1.0, f64::MAX, f64::INFINITY, f64::NAN];
    let ends = boxes::ENDS.into_iter().flat_map(|end| [end.next_down(), end, end.next_up()]);
    positive.into_iter().chain(ends).flat_map(|number| [number, -number]).collect()
}

/// Every two special numbers as a point, every two such points of a few of them, and each length about a few points
/// with each output that is too short or somewhat longer; by both kinds, and by those beside them.
fn boxes_of_few(comparison: &mut Comparison) -> Result<(), Difference> {
    let special = special_numbers();
    let few = [-1.0, -0.0, 0.0, 1.0, f64::NAN, f64::INFINITY, 90.0_f64.next_up(), -180.0];
    for kind in boxes::KINDS {
        for &x in &special {
            for &y in &special {
                for points in [&[x, y][..], &[x, y, 2.0, 3.0], &[f64::NAN, 3.0, x, y], &[2.0, f64::NAN, x, y]] {
                    boxes::found(comparison, kind, points, WIDTH)?;
                }
            }
        }
        for x in few {
            for y in few {
                for (other_x, other_y) in few.into_iter().flat_map(|x| few.map(|y| (x, y))) {
                    boxes::found(comparison, kind, &[x, y, other_x, other_y], WIDTH)?;
                }
            }
        }
    }
    for kind in (0..=32).chain([255, 256 + 17, 256 + 18, 1 << 31 | 17, u32::MAX]) {
        for filled in [1.0, -0.0, 91.0, 181.0, f64::NAN, f64::INFINITY] {
            for length in 0..=7 {
                for lent in 0..=5 {
                    boxes::found(comparison, kind, &vec![filled; length], lent)?;
                }
            }
            boxes::tested(comparison, kind, [0.0, 1.0, 0.0, filled], [1.0, filled])?;
        }
    }
    Ok(())
}

/// Every three special numbers as the bounds and a coordinate of one axis, with the other axis right, outside, a NaN,
/// out of range and turned round.
fn points_in_boxes(comparison: &mut Comparison) -> Result<(), Difference> {
    let special = special_numbers();
    let others = [
        [0.0, 2.0, 1.0],
        [0.0, 2.0, 3.0],
        [0.0, 2.0, f64::NAN],
        [0.0, 200.0, 1.0],
        [0.0, 2.0, -200.0],
        [2.0, 0.0, 1.0],
    ];
    for kind in boxes::KINDS {
        for &least in &special {
            for &greatest in &special {
                for &number in &special {
                    for [other_least, other_greatest, other] in others {
                        let [x, y] = [[least, greatest], [other_least, other_greatest]];
                        boxes::tested(comparison, kind, [x[0], x[1], y[0], y[1]], [number, other])?;
                        boxes::tested(comparison, kind, [y[0], y[1], x[0], x[1]], [other, number])?;
                    }
                }
            }
        }
    }
    Ok(())
}

/// Reads a STRING; it is refused where Rust's own check of UTF-8 stops, and taken where that takes it.
fn text(comparison: &mut Comparison, bytes: &[u8]) -> Result<(), Difference> {
    const STRING: Column = [6, 0, 1, 0, 0];
    let answer = comparison.read_in_all(STRING, bytes, 2)?;
    let stop = match refusal_of(answer) {
        0 => bytes.len(),
        refusal::VALUE => value_of(answer) as usize,
        _ => usize::MAX,
    };
    let by_rust = std::str::from_utf8(bytes).map_or_else(|fault| fault.valid_up_to(), str::len);
    if stop == by_rust {
        Ok(())
    } else {
        Err(broken("read", format!("{}, but Rust's check stops at {by_rust}", shown(answer)), bytes))
    }
}
