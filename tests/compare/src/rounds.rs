//! Rounds of comparisons. A round is told by the seed and its number alone, so that one can be run again by itself.

use std::iter;

use independent::boxes::WIDTH;
use independent::compare::ENTRY;
use independent::edition::{FIRST, SECOND, THIRD};
use independent::int96::SIZE;
use independent::refusal;
use independent::sheet::{self, MAX_NODES};
use independent::tree::MAX_DEPTH;
use independent::ROW_WIDTH;

use crate::boxes;
use crate::changes::{change, change_nodes};
use crate::columns::{column, is_text, second_value, value};
use crate::comparison::{broken, Comparison, Difference};
use crate::instants::{count, fields, unit};
use crate::int96;
use crate::lists;
use crate::near::near_trees;
use crate::random::Random;
use crate::sheets::{assemble, random_bytes, store_unreduced, total_of};
use crate::side::{refusal_of, refused, shown, value_of};
use crate::trees::{deep_tree, is_fraction, is_geospatial, is_int96, tree, Slot};

/// Runs one round.
pub fn run(comparison: &mut Comparison, seed: u64, round: u64) -> Result<(), Difference> {
    let random = &mut Random::of_round(seed, round);
    sheets(comparison, random)?;
    let bytes = random_bytes(random);
    both(comparison, random, &bytes)?;
    for _ in 0..12 {
        values(comparison, random)?;
    }
    other_editions(comparison, random, &bytes)?;
    for _ in 0..8 {
        instants(comparison, random)?;
        int96_times(comparison, random)?;
        points_and_boxes(comparison, random)?;
    }
    for _ in 0..2 {
        pairs(comparison, random)?;
    }
    Ok(())
}

/// A lawful tree; it with one change and with two, checks renewed or not; it with other nodes.
fn sheets(comparison: &mut Comparison, random: &mut Random) -> Result<(), Difference> {
    let size = size(random);
    let slots = tree(random, size);
    let lawful = assemble(&slots);
    accepted(comparison, random, &slots)?;
    for changes in [1, 1, 1, 2, 2, 2] {
        let mut sheet = lawful.clone();
        (0..changes).for_each(|_| change(random, &mut sheet));
        if random.percent(85) {
            sheet::renew_checks(&mut sheet);
        }
        both(comparison, random, &sheet)?;
    }
    let mut other = slots;
    for _ in 0..random.between(1, 2) {
        change_nodes(random, &mut other);
    }
    other.truncate(MAX_NODES);
    both(comparison, random, &assemble(&other))?;
    // Deep enough that some node may be below the greatest depth.
    if random.percent(25) {
        let size = random.between(MAX_DEPTH, 3 * MAX_DEPTH);
        let depth = random.between(MAX_DEPTH, MAX_DEPTH + 3);
        let mut sheet = assemble(&deep_tree(random, size, depth));
        if random.percent(20) {
            change(random, &mut sheet);
            sheet::renew_checks(&mut sheet);
        }
        both(comparison, random, &sheet)?;
    }
    if random.percent(3) {
        let mut sheet = lawful;
        if store_unreduced(random, &mut sheet) {
            both(comparison, random, &sheet)?;
        }
    }
    Ok(())
}

/// Two sheets near one another, both lawful or one or both with a change, with enough lent or not.
fn pairs(comparison: &mut Comparison, random: &mut Random) -> Result<(), Difference> {
    let size = size(random);
    let mut sheets = near_trees(random, size).map(|slots| assemble(&slots));
    let changed: &[usize] = match random.below(20) {
        0 => &[0],
        1 => &[1],
        2 => &[0, 1],
        _ => &[],
    };
    for &at in changed {
        change(random, &mut sheets[at]);
        if random.percent(85) {
            sheet::renew_checks(&mut sheets[at]);
        }
    }
    lists::compare(comparison, [&sheets[0], &sheets[1]], |needed| match random.below(8) {
        0 => needed.saturating_sub(1),
        1 => needed.saturating_sub(ENTRY),
        2 => random.below(needed + 1),
        3 => needed + 1,
        4 => needed + random.below(3 * ENTRY),
        _ => needed,
    })
}

/// How many nodes a tree has.
fn size(random: &mut Random) -> usize {
    match random.below(200) {
        0 => random.between(MAX_NODES - 8, MAX_NODES),
        1 => random.between(200, MAX_NODES),
        2..10 => random.between(50, 200),
        10..80 => random.between(8, 50),
        80..90 => random.pick(&[1, 6, 7, 8, 13, 14, 15]),
        _ => random.between(1, 8),
    }
}

/// A sheet that the third edition must accept where no leaf is INT96, the second where none is GEOMETRY or GEOGRAPHY,
/// and the first where no scale equals its precision either: what rewriting it gives is held to what document 01 says
/// of it.
fn accepted(comparison: &mut Comparison, random: &mut Random, slots: &[Slot]) -> Result<(), Difference> {
    let sheet = &assemble(slots);
    let of_second = slots.iter().position(is_fraction).map(|node| (refusal::DECIMAL, node));
    let of_third = slots.iter().position(is_geospatial).map(|node| (refusal::SLOT, node));
    let total = slots.len();
    if let Some((number, node)) = of_third.or(of_second) {
        let answer = comparison.resolve(FIRST, sheet, ROW_WIDTH * total)?;
        if answer != refused(number, node as u32) {
            return Err(broken("resolve", format!("a leaf of a later edition at {node}: {}", shown(answer)), sheet));
        }
    }
    let mut editions = Vec::new();
    editions.extend(of_third.or(of_second).is_none().then_some(FIRST));
    editions.extend(of_third.is_none().then_some(SECOND));
    editions.extend((!slots.iter().any(is_int96)).then_some(THIRD));
    let edition = random.pick(&editions);
    let answer = comparison.resolve(edition, sheet, ROW_WIDTH * total)?;
    if answer != total as u64 {
        return Err(broken("resolve", format!("a lawful tree was refused by {}", refusal_of(answer)), sheet));
    }
    let rows = comparison.resolved(answer);
    if !levels_count_the_path(&rows) {
        return Err(broken("resolve", "levels that are not the counts over the path".to_string(), sheet));
    }
    let start = random.below(20);
    let answer = comparison.rewrite(edition, sheet, start + sheet.len() + 3, start)?;
    if answer != sheet.len() as u64 {
        return Err(broken("rewrite", format!("a lawful tree was refused by {}", refusal_of(answer)), sheet));
    }
    let made = comparison.rewritten(start, answer);
    let answer = comparison.resolve(edition, &made, ROW_WIDTH * total)?;
    if refusal_of(answer) != 0 || comparison.resolved(answer) != rows {
        return Err(broken("rewrite", "the rewritten sheet has other rows".to_string(), sheet));
    }
    let answer = comparison.rewrite(edition, &made, made.len(), 0)?;
    if refusal_of(answer) != 0 || comparison.rewritten(0, answer) != made {
        return Err(broken("rewrite", "the rewritten sheet is rewritten to another".to_string(), sheet));
    }
    both(comparison, random, sheet)
}

/// Whether the levels in each row count the nodes from its own up to the root, by the repetitions and parents in the rows.
fn levels_count_the_path(rows: &[u32]) -> bool {
    let rows: Vec<&[u32]> = rows.chunks_exact(ROW_WIDTH).collect();
    (0..rows.len()).all(|node| {
        let path = || iter::successors(Some(node), |&below| (below > 0).then(|| rows[below][6] as usize));
        let counted = |repetitions: &[u32]| path().filter(|&on| repetitions.contains(&rows[on][2])).count() as u32;
        rows[node][9..] == [counted(&[1, 2]), counted(&[2])]
    })
}

/// Resolves and rewrites bytes, with enough lent or not.
fn both(comparison: &mut Comparison, random: &mut Random, sheet: &[u8]) -> Result<(), Difference> {
    let needed = ROW_WIDTH * total_of(sheet).min(MAX_NODES);
    let lent = match random.below(8) {
        0 => needed.saturating_sub(1),
        1 => random.below(needed + 1),
        2 => needed + 1,
        3 => needed + random.below(40),
        _ => needed,
    };
    comparison.resolve_in_all(sheet, lent)?;
    let start = random.pick(&[0, 0, 1, 7, 511, 513]);
    let (lent, start) = match random.below(8) {
        0 => ((sheet.len() + start).saturating_sub(1), start),
        1 => (random.below(sheet.len() + 1), start),
        2 => (sheet.len() + start, sheet.len() + start + random.below(3)),
        3 => (sheet.len() + 9, random.pick(&[usize::MAX, usize::MAX - 511, 1 << 32, 1 << 63])),
        4 => (sheet.len() + start + random.below(600), start),
        _ => (sheet.len() + start, start),
    };
    comparison.rewrite_in_all(sheet, lent, start)
}

/// Each entry asked in an edition far from the known ones.
fn other_editions(comparison: &mut Comparison, random: &mut Random, sheet: &[u8]) -> Result<(), Difference> {
    let any = random.any() as u32;
    let edition = random.pick(&[257, 258, 1 << 16 | 1, 1 << 31 | 2, u32::MAX, any]);
    comparison.resolve(edition, sheet, ROW_WIDTH)?;
    comparison.rewrite(edition, sheet, sheet.len(), 0)?;
    comparison.compare(edition, sheet, sheet, 0)?;
    let column = column(random);
    let value = value(random, column);
    comparison.read(edition, column, &value, 2)?;
    comparison.order(edition, column, &value, &value)?;
    Ok(())
}

/// A value read, and two ordered. Text is refused where Rust's own check of UTF-8 stops.
fn values(comparison: &mut Comparison, random: &mut Random) -> Result<(), Difference> {
    let column = column(random);
    let first = value(random, column);
    let lent = if random.percent(5) { random.below(2) } else { random.pick(&[2, 2, 3, 9]) };
    let answer = comparison.read_in_all(column, &first, lent)?;
    if is_text(column) && refusal_of(answer) == refusal::VALUE {
        let stop = std::str::from_utf8(&first).map_or_else(|fault| fault.valid_up_to(), str::len);
        if value_of(answer) as usize != stop {
            return Err(broken("read", format!("{}, but Rust's check stops at {stop}", shown(answer)), &first));
        }
    }
    let second = second_value(random, column, &first);
    comparison.order_in_all(column, &first, &second)
}

/// A count decoded and encoded again, and fields encoded and decoded again.
fn instants(comparison: &mut Comparison, random: &mut Random) -> Result<(), Difference> {
    let number = count(random);
    let first_unit = unit(random);
    let lent = if random.percent(5) { random.below(7) } else { random.pick(&[7, 7, 8, 20]) };
    let answer = comparison.decode(first_unit, number, lent)?;
    if refusal_of(answer) == 0 {
        let decoded = comparison.decoded();
        let back = comparison.encode(first_unit, &decoded, 1)?;
        if refusal_of(back) != 0 || comparison.encoded() != number {
            return Err(broken("decode", format!("unit {first_unit}, count {number} does not come back"), &[]));
        }
    }
    let second_unit = unit(random);
    let given = fields(random, second_unit);
    let mut longer = given.to_vec();
    if random.percent(5) {
        longer.truncate(random.below(7));
    } else if random.percent(10) {
        longer.push(i64::MAX);
    }
    let lent = if random.percent(5) { 0 } else { random.pick(&[1, 1, 2]) };
    let answer = comparison.encode(second_unit, &longer, lent)?;
    if refusal_of(answer) == 0 {
        let encoded = comparison.encoded();
        comparison.decode(second_unit, encoded, given.len())?;
        if comparison.decoded() != given {
            return Err(broken("encode", format!("unit {second_unit}, fields {given:?} do not come back"), &[]));
        }
    }
    Ok(())
}

/// An INT96 turned into a count and back, and a count turned into an INT96 and back.
fn int96_times(comparison: &mut Comparison, random: &mut Random) -> Result<(), Difference> {
    let value = int96::value(random);
    let lent = if random.percent(10) { 0 } else { random.pick(&[1, 1, 2, 12]) };
    int96::from_and_back(comparison, &value, lent)?;
    let number = count(random);
    let lent = if random.percent(10) { random.below(SIZE) } else { random.pick(&[SIZE, SIZE, SIZE + 1, 40]) };
    int96::to_and_back(comparison, number, lent)
}

/// The box of points with enough lent or not, and a point in a box.
fn points_and_boxes(comparison: &mut Comparison, random: &mut Random) -> Result<(), Difference> {
    let points = boxes::points(random);
    let lent = if random.percent(15) { random.below(WIDTH) } else { random.pick(&[WIDTH, WIDTH, WIDTH + 1, 40]) };
    let kind = boxes::kind(random);
    boxes::found(comparison, kind, &points, lent)?;
    let bounds = boxes::bounds(random);
    let kind = boxes::kind(random);
    for _ in 0..3 {
        boxes::tested(comparison, kind, bounds, boxes::point(random, bounds))?;
    }
    Ok(())
}
