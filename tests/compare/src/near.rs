//! Trees near one another: a lawful one, and the same with fields of its slots changed and with nodes taken out, put
//! in, doubled and moved. What is changed keeps the rules of the second edition or of the third, but where a node gets
//! too deep, nodes get too many, or a leaf of INT96 and one of GEOMETRY or GEOGRAPHY come together.

use independent::codes::repetition::{self, OPTIONAL, REPEATED, REQUIRED};
use independent::codes::{converted, logical, physical};
use independent::sheet::{MAX_NAME, SLOT};

use crate::random::Random;
use crate::trees::{deep_tree, tree, Slot};

/// The slots of two trees near one another, one of them of so many nodes.
pub fn near_trees(random: &mut Random, size: usize) -> [Vec<Slot>; 2] {
    let mut one = if random.percent(30) { wide(random, size) } else { Node::of(&tree(random, size)) };
    if random.percent(20) {
        let mut stem = vec![0; random.between(0, MAX_NAME - 2)];
        random.fill(&mut stem);
        one.fields.iter_mut().for_each(|field| name_alike(random, field, &stem));
    }
    let mut other = one.clone();
    let changes = match random.below(20) {
        0 => 0,
        1..8 => 1,
        8..14 => random.between(2, 4),
        14..18 => random.between(5, 20),
        // Another tree, near only by chance.
        _ => {
            let size = random.between(1, size);
            other = Node::of(&tree(random, size));
            random.below(2)
        }
    };
    for _ in 0..changes {
        change(random, &mut other);
    }
    let mut trees = [one.listing(), other.listing()];
    if random.percent(50) {
        trees.reverse();
    }
    trees
}

/// A node and the fields below it. What its slot claims is not looked at.
#[derive(Clone)]
struct Node {
    slot: Slot,
    fields: Vec<Node>,
}

impl Node {
    /// The tree that slots list.
    fn of(slots: &[Slot]) -> Self {
        fn next(slots: &mut impl Iterator<Item = Slot>) -> Node {
            let slot = slots.next().expect("a lawful tree has the nodes that it claims");
            let claimed = u16::from_le_bytes([slot[6], slot[7]]);
            Node { slot, fields: (0..claimed).map(|_| next(slots)).collect() }
        }
        next(&mut slots.iter().copied())
    }

    /// The slots of the tree, each claiming the fields that it has.
    fn listing(&self) -> Vec<Slot> {
        let mut slot = self.slot;
        slot[6..8].copy_from_slice(&(self.fields.len() as u16).to_le_bytes());
        [slot].into_iter().chain(self.fields.iter().flat_map(Node::listing)).collect()
    }

    fn count(&self) -> usize {
        1 + self.fields.iter().map(Node::count).sum::<usize>()
    }

    /// The node of a number in listing order.
    fn at(&mut self, number: usize) -> &mut Node {
        let Some(mut left) = number.checked_sub(1) else { return self };
        for field in &mut self.fields {
            let count = field.count();
            if left < count {
                return field.at(left);
            }
            left -= count;
        }
        panic!("no node {number}")
    }

    /// The numbers of the groups that may have any fields: those without annotation, but for the layers of maps.
    fn free_groups(&self) -> Vec<usize> {
        fn collect(node: &Node, is_map_layer: bool, number: &mut usize, free: &mut Vec<usize>) {
            let is_plain = node.slot[2..4] == [converted::NONE, logical::NONE];
            if !node.is_leaf() && is_plain && !is_map_layer {
                free.push(*number);
            }
            *number += 1;
            for field in &node.fields {
                collect(field, node.is_map() && !is_map_layer, number, free);
            }
        }
        let mut free = Vec::new();
        collect(self, false, &mut 0, &mut free);
        free
    }

    fn is_root(&self) -> bool {
        self.slot[1] == repetition::NONE
    }

    fn is_leaf(&self) -> bool {
        self.slot[0] != physical::GROUP
    }

    fn is_map(&self) -> bool {
        matches!(self.slot[2], converted::MAP | converted::MAP_KEY_VALUE) || self.slot[3] == logical::MAP
    }

    fn is_list(&self) -> bool {
        self.slot[2] == converted::LIST || self.slot[3] == logical::LIST
    }

    fn is_decimal(&self) -> bool {
        self.slot[2] == converted::DECIMAL || self.slot[3] == logical::DECIMAL
    }

    fn name(&self) -> &[u8] {
        &self.slot[24..][..usize::from(self.slot[20])]
    }

    fn rename(&mut self, name: &[u8]) {
        self.slot[20] = name.len() as u8;
        self.slot[24..].fill(0);
        self.slot[24..][..name.len()].copy_from_slice(name);
    }
}

/// A tree of so many nodes with few levels, so that many are siblings.
fn wide(random: &mut Random, size: usize) -> Node {
    let depth = random.between(1, 3);
    Node::of(&deep_tree(random, size, depth))
}

/// Gives a node and all below it names that begin alike.
fn name_alike(random: &mut Random, node: &mut Node, stem: &[u8]) {
    const ENDS: [&[u8]; 8] = [b"a", b"b", b"a\0", b"\0", b"\x7F", b"\x80", b"\xFF", b"\xFF\xFF"];
    node.rename(&[stem, random.pick(&ENDS)].concat());
    node.fields.iter_mut().for_each(|field| name_alike(random, field, stem));
}

/// Makes one change.
fn change(random: &mut Random, tree: &mut Node) {
    let groups = tree.free_groups();
    let number = if random.percent(50) { random.pick(&groups) } else { group_of_a_field(random, tree, &groups) };
    let group = tree.at(number);
    match random.below(20) {
        0..2 => change_root_name(random, tree),
        2..5 => {
            let node = random.below(tree.count());
            change_type(random, tree.at(node));
        }
        5..7 => put_in(random, group),
        _ if group.fields.is_empty() => {}
        7..9 => drop(take_out(random, group)),
        9..11 => double(random, group),
        11..14 => reorder(random, &mut group.fields),
        14..16 => {
            if let Some(field) = take_out(random, group) {
                let other = random.pick(&tree.free_groups());
                insert(random, tree.at(other), field);
            }
        }
        16..18 => rename_field(random, group),
        18 => change_kind(random, group),
        _ => change_repetition(random, group),
    }
}

/// One of some groups, each as often as it has fields.
fn group_of_a_field(random: &mut Random, tree: &mut Node, groups: &[usize]) -> usize {
    let of_fields: Vec<usize> = groups.iter().flat_map(|&group| vec![group; tree.at(group).fields.len()]).collect();
    random.pick(if of_fields.is_empty() { groups } else { &of_fields })
}

/// A leaf of any type, name and repetition.
fn any_leaf(random: &mut Random) -> Node {
    Node { slot: tree(random, 2)[1], fields: Vec::new() }
}

/// Gives the root another name: any, or one that differs at its end.
fn change_root_name(random: &mut Random, root: &mut Node) {
    let name = root.name().to_vec();
    let other = match random.below(3) {
        0 if name.len() < MAX_NAME => [&name, &[0][..]].concat(),
        1 if name.len() > 1 => name[..name.len() - 1].to_vec(),
        _ => any_leaf(random).name().to_vec(),
    };
    root.rename(&other);
}

/// Gives a leaf any type, a DECIMAL other digits, or a LIST or MAP its annotation in another form.
fn change_type(random: &mut Random, node: &mut Node) {
    const NONE: u8 = converted::NONE;
    if node.is_decimal() && random.percent(70) {
        change_digits(random, node);
    } else if node.is_leaf() {
        let mut other = any_leaf(random);
        other.rename(node.name());
        other.slot[1] = node.slot[1];
        *node = other;
    } else if node.is_list() {
        let forms = [[converted::LIST, logical::NONE], [NONE, logical::LIST], [converted::LIST, logical::LIST]];
        node.slot[2..4].copy_from_slice(&random.pick(&forms));
    } else if node.is_map() && node.slot[1] != REPEATED {
        let forms = [[converted::MAP, logical::NONE], [NONE, logical::MAP], [converted::MAP, logical::MAP]];
        node.slot[2..4].copy_from_slice(&random.pick(&forms));
    }
}

/// Gives a DECIMAL another scale below its precision, or a lesser precision above its scale.
fn change_digits(random: &mut Random, leaf: &mut Node) {
    let number = |at: usize| u32::from_le_bytes([0, 1, 2, 3].map(|byte| leaf.slot[at + byte])) as usize;
    let (scale, precision) = (number(12), number(16));
    let (at, other) = if random.percent(50) || scale >= precision {
        (12, random.below(precision))
    } else {
        (16, random.between(scale + 1, precision))
    };
    leaf.slot[at..at + 4].copy_from_slice(&(other as u32).to_le_bytes());
}

/// Puts a field into a group, of a name that another there may have.
fn put_in(random: &mut Random, group: &mut Node) {
    let size = random.between(2, 6);
    let mut field = Node::of(&tree(random, size)).fields.swap_remove(0);
    if random.percent(50) && !group.fields.is_empty() {
        field.rename(group.fields[random.below(group.fields.len())].name());
    }
    insert(random, group, field);
}

fn insert(random: &mut Random, group: &mut Node, field: Node) {
    group.fields.insert(random.between(0, group.fields.len()), field);
}

/// Takes a field out of a group, unless that would leave a group other than the root without fields.
fn take_out(random: &mut Random, group: &mut Node) -> Option<Node> {
    let may_lose_one = group.is_root() || group.fields.len() > 1;
    may_lose_one.then(|| group.fields.remove(random.below(group.fields.len())))
}

/// Lets a field of a group stand twice.
fn double(random: &mut Random, group: &mut Node) {
    let field = group.fields[random.below(group.fields.len())].clone();
    insert(random, group, field);
}

/// Exchanges two fields, moves some behind the others, turns all round, or mixes them.
fn reorder(random: &mut Random, fields: &mut [Node]) {
    let (one, other) = (random.below(fields.len()), random.below(fields.len()));
    match random.below(4) {
        0 => fields.swap(one, other),
        1 => fields[one.min(other)..].rotate_left(one.abs_diff(other)),
        2 => fields.reverse(),
        _ => (1..fields.len()).for_each(|at| fields.swap(at, random.between(0, at))),
    }
}

/// Gives a field of a group another name: that of another field, one that differs at its end, or any.
fn rename_field(random: &mut Random, group: &mut Node) {
    let (one, other) = (random.below(group.fields.len()), random.below(group.fields.len()));
    let name = match random.below(3) {
        0 => group.fields[other].name().to_vec(),
        1 if group.fields[one].name().len() < MAX_NAME => [group.fields[one].name(), &[0]].concat(),
        _ => any_leaf(random).name().to_vec(),
    };
    group.fields[one].rename(&name);
}

/// Makes a group of a leaf that is a field of a group, or a leaf of a group, with its name and repetition.
fn change_kind(random: &mut Random, group: &mut Node) {
    let at = random.below(group.fields.len());
    let field = &mut group.fields[at];
    let mut other = any_leaf(random);
    if field.is_leaf() {
        let mut slot = [0; SLOT];
        (slot[0], slot[2]) = (physical::GROUP, converted::NONE);
        other = Node { slot, fields: vec![other] };
    }
    other.rename(field.name());
    other.slot[1] = field.slot[1];
    *field = other;
}

/// Gives a field of a group any repetition; a LIST or MAP is not repeated.
fn change_repetition(random: &mut Random, group: &mut Node) {
    let at = random.below(group.fields.len());
    let field = &mut group.fields[at];
    let is_single = field.is_map() || field.is_list();
    field.slot[1] = random.pick(if is_single { &[REQUIRED, OPTIONAL] } else { &[REQUIRED, OPTIONAL, REPEATED] });
}
