//! Lists of the differences of two sheets, and what document 02 says of every list.

use std::collections::{HashMap, HashSet};

use independent::codes::logical::is_geospatial;
use independent::compare::{differences, Entry, ENTRY, ONLY_IN_FIRST, ONLY_IN_SECOND};
use independent::edition::{SECOND, THIRD};
use independent::sheet::{slot_at, Sheet, SLOT};
use independent::tree::Tree;
use independent::{rebuild, refusal};

use crate::comparison::{broken, Comparison, Difference};
use crate::sheets::total_of;
use crate::side::refusal_of;

/// Compares two sheets both ways round in every edition, with so many bytes lent for so many as the list has, and holds their lists to what
/// is said of them.
pub fn compare(
    comparison: &mut Comparison,
    sheets: [&[u8]; 2],
    mut lent: impl FnMut(usize) -> usize,
) -> Result<(), Difference> {
    for [first, second] in both_ways(sheets) {
        comparison.compare_in_all(first, second, lent(needed([first, second])))?;
    }
    hold(comparison, sheets)
}

/// Compares two sheets both ways round in an edition that takes both, and holds their lists to what is said of them:
/// the order of the entries, which nodes match, that a list is empty exactly where the sheets are equal, that the
/// second sheet can be rebuilt, and that both lists tell the same.
fn hold(comparison: &mut Comparison, sheets: [&[u8]; 2]) -> Result<(), Difference> {
    let mut lists = Vec::new();
    for [first, second] in both_ways(sheets) {
        let wrong = |what: &str| Err(broken("compare", what.to_string(), &[first, second].concat()));
        let answer = comparison.compare(edition_of(sheets), first, second, needed([first, second]))?;
        match refusal_of(answer) {
            0 => {}
            refusal::OUTPUT => return wrong("refused with enough lent"),
            _ => return Ok(()),
        }
        let list = comparison.list(answer);
        if !is_in_order(&list) {
            return wrong("entries that are not in their order");
        }
        let nodes = |code| entries(&list).filter(|entry| entry.code == code).map(|entry| entry.node.into()).collect();
        if unmatched([first, second]) != Some([nodes(ONLY_IN_FIRST), nodes(ONLY_IN_SECOND)]) {
            return wrong("nodes of one path that do not match, or of two that do");
        }
        if list.is_empty() != (first == second) {
            return wrong("an empty list of unequal sheets, or entries of equal ones");
        }
        if rebuild(first, &list).as_deref() != Some(second) {
            return wrong("the second sheet cannot be rebuilt");
        }
        lists.push(list);
    }
    if told(&lists[0], false) != told(&lists[1], true) {
        let what = "the list of the second sheet and the first tells otherwise".to_string();
        return Err(broken("compare", what, &sheets.concat()));
    }
    Ok(())
}

fn both_ways([first, second]: [&[u8]; 2]) -> [[&[u8]; 2]; 2] {
    [[first, second], [second, first]]
}

/// How many bytes the list of two sheets has, or a few entries where they are refused.
fn needed([first, second]: [&[u8]; 2]) -> usize {
    ENTRY * differences(edition_of([first, second]), first, second).map_or(3, |list| list.len())
}

/// The second edition, or the third where a leaf is its own.
fn edition_of([first, second]: [&[u8]; 2]) -> u32 {
    let is_own = |sheet: &&[u8]| {
        (0..total_of(sheet)).any(|node| slot_at(sheet, node).is_some_and(|(_, slot)| is_geospatial(slot.logical)))
    };
    if [first, second].iter().any(is_own) {
        THIRD
    } else {
        SECOND
    }
}

fn entries(list: &[u8]) -> impl Iterator<Item = Entry> + '_ {
    list.chunks_exact(ENTRY).map(|entry| Entry::parse(entry.try_into().expect("a whole entry")))
}

/// Whether the entries stand by node and at one node by code, those of nodes that only the second sheet has behind the others.
fn is_in_order(list: &[u8]) -> bool {
    let keys: Vec<_> = entries(list).map(|entry| (entry.code == ONLY_IN_SECOND, entry.node, entry.code)).collect();
    keys.windows(2).all(|two| two[0] < two[1])
}

/// The nodes of each of two sheets whose path the other has not; none where one has no tree. A path is its parent's, a name, and how many
/// siblings before have that name too.
fn unmatched(sheets: [&[u8]; 2]) -> Option<[Vec<usize>; 2]> {
    // The number of each path; the root's is 0.
    let mut numbers: HashMap<(usize, &[u8], usize), usize> = HashMap::new();
    let mut paths = |sheet| {
        let tree = Sheet::open(THIRD, sheet).and_then(Tree::read).ok()?;
        let mut paths = vec![0];
        let mut before: HashMap<(usize, &[u8]), usize> = HashMap::new();
        for node in 1..tree.node_count() {
            let (parent, name) = (tree.parent(node), tree.slot(node).name);
            let alike = before.entry((parent, name)).or_default();
            let next = numbers.len() + 1;
            paths.push(*numbers.entry((paths[parent], name, *alike)).or_insert(next));
            *alike += 1;
        }
        Some(paths)
    };
    let (first, second) = (paths(sheets[0])?, paths(sheets[1])?);
    let outside = |paths: &[usize], others: &[usize]| {
        let others: HashSet<&usize> = others.iter().collect();
        (0..paths.len()).filter(|&node| !others.contains(&paths[node])).collect()
    };
    Some([outside(&first, &second), outside(&second, &first)])
}

/// An entry without the number of a matched node, which each sheet has its own of.
type Told = (u8, u16, [u8; SLOT], [u8; SLOT]);

/// What a list tells, in one order; turned, what it tells with the sheets exchanged.
fn told(list: &[u8], is_turned: bool) -> Vec<Told> {
    let told = entries(list).map(|Entry { code, node, first, second }| {
        let node = if matches!(code, ONLY_IN_FIRST | ONLY_IN_SECOND) { node } else { 0 };
        match code {
            _ if !is_turned => (code, node, first, second),
            ONLY_IN_FIRST => (ONLY_IN_SECOND, node, second, first),
            ONLY_IN_SECOND => (ONLY_IN_FIRST, node, second, first),
            _ => (code, node, second, first),
        }
    });
    let mut told: Vec<Told> = told.collect();
    told.sort_unstable();
    told
}
