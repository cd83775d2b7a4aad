//! Lists of differences, made by hand: every code, names that siblings share, nodes that one sheet alone has, siblings that moved, and
//! refusals. Each list is held to its bytes, and each second sheet is rebuilt from the first and the list.

use independent::compare::{differences, Entry, ENTRY};
use independent::edition::{FIRST, SECOND, THIRD};
use independent::sheet::{assemble, renew_checks, slot_start, Slot, MAX_NODES, SLOT};
use independent::{compare, rebuild, PairRefusal, Refusal};

const LEAF: Slot = Slot { physical: 1, converted: 255, name_length: 1, name: b"v", ..Slot::UNUSED };

fn named<'a>(slot: Slot<'a>, name: &'a [u8]) -> Slot<'a> {
    Slot { name_length: name.len() as u8, name, ..slot }
}

fn leaf(name: &str) -> Slot<'_> {
    named(LEAF, name.as_bytes())
}

fn group(name: &str, children: u16) -> Slot<'_> {
    Slot { physical: 255, children, ..leaf(name) }
}

fn root(children: u16) -> Slot<'static> {
    Slot { repetition: 255, ..group("r", children) }
}

/// A root with leaves.
fn leaves<'a>(names: &[&'a str]) -> Vec<Slot<'a>> {
    [root(names.len() as u16)].into_iter().chain(names.iter().map(|name| leaf(name))).collect()
}

fn entry(code: u8, node: u16, first: &[u8], second: &[u8]) -> Entry {
    let filled = |content: &[u8]| {
        let mut filled = [0; SLOT];
        filled[..content.len()].copy_from_slice(content);
        filled
    };
    Entry { code, node, first: filled(first), second: filled(second) }
}

fn places(node: u16, first: u16, second: u16) -> Entry {
    entry(72, node, &first.to_le_bytes(), &second.to_le_bytes())
}

fn only_in_first(node: u16, slot: Slot) -> Entry {
    entry(73, node, &slot.to_bytes(), &[])
}

fn only_in_second(node: u16, slot: Slot) -> Entry {
    entry(74, node, &[], &slot.to_bytes())
}

/// Holds the list of two trees in every edition to its entries, with bytes lent that no entry needs, and rebuilds the second sheet.
fn holds(first: &[Slot], second: &[Slot], expected: &[Entry]) {
    let (first, second) = (assemble(first), assemble(second));
    for edition in [FIRST, SECOND, THIRD] {
        assert_eq!(differences(edition, &first, &second).unwrap(), expected);
        let bytes = expected.iter().flat_map(Entry::to_bytes).collect::<Vec<_>>();
        for beyond in [0, 1, ENTRY] {
            let mut out = vec![9; bytes.len() + beyond];
            assert_eq!(compare(edition, &first, &second, &mut out), Ok(expected.len() as u32));
            assert_eq!((&out[..bytes.len()], &out[bytes.len()..]), (&bytes[..], &vec![9; beyond][..]));
        }
        assert_eq!(rebuild(&first, &bytes), Some(second.clone()));
    }
}

#[test]
fn an_entry_has_148_bytes() {
    let (first, second) = (assemble(&leaves(&["a", "b"])), assemble(&leaves(&["b", "a"])));
    let mut out = [9; 2 * 148 + 1];
    assert_eq!(compare(FIRST, &first, &second, &mut out), Ok(2));
    let mut expected = [0; 2 * 148 + 1];
    expected[..4].copy_from_slice(&[72, 0, 1, 0]);
    expected[4 + SLOT] = 1;
    expected[148..152].copy_from_slice(&[72, 0, 2, 0]);
    expected[152] = 1;
    expected[2 * 148] = 9;
    assert_eq!(out, expected);
}

#[test]
fn equal_sheets_have_no_differences() {
    holds(&[root(0)], &[root(0)], &[]);
    let slots = [root(3), leaf("a"), group("a", 1), leaf("a"), leaf("b")];
    holds(&slots, &slots, &[]);
}

#[test]
fn each_field_of_a_slot() {
    let int32 = |other: Slot<'static>, expected: &[Entry]| holds(&[root(1), LEAF], &[root(1), other], expected);
    int32(Slot { physical: 2, ..LEAF }, &[entry(0, 1, &[1], &[2])]);
    int32(Slot { repetition: 2, ..LEAF }, &[entry(1, 1, &[0], &[2])]);
    int32(Slot { converted: 6, ..LEAF }, &[entry(2, 1, &[255], &[6])]);
    int32(Slot { logical: 6, ..LEAF }, &[entry(3, 1, &[0], &[6])]);
    let width = |a, b| [root(1), Slot { logical: 10, a, b, ..LEAF }];
    holds(&width(8, 0), &width(16, 0), &[entry(4, 1, &[8], &[16])]);
    holds(&width(8, 0), &width(8, 1), &[entry(5, 1, &[0], &[1])]);
    let fixed = |type_length| [root(1), Slot { physical: 7, type_length, ..LEAF }];
    holds(&fixed(1), &fixed(0x0403_0201), &[entry(8, 1, &[1, 0, 0, 0], &[1, 2, 3, 4])]);
    let decimal = |scale, precision| [root(1), Slot { physical: 6, logical: 5, scale, precision, ..LEAF }];
    holds(&decimal(0, 0x0101), &decimal(0x0100, 0x0101), &[entry(12, 1, &[0; 4], &[0, 1, 0, 0])]);
    holds(&decimal(0, 3), &decimal(0, 0x0203), &[entry(16, 1, &[3, 0, 0, 0], &[3, 2, 0, 0])]);
    let codes_rise = [
        entry(0, 1, &[6], &[2]),
        entry(2, 1, &[255], &[5]),
        entry(3, 1, &[5], &[0]),
        entry(12, 1, &[0; 4], &[1, 0, 0, 0]),
        entry(16, 1, &[3, 0, 0, 0], &[2, 0, 0, 0]),
        places(1, 0, 1),
    ];
    let first = [root(2), decimal(0, 3)[1], leaf("w")];
    let second = [root(2), leaf("w"), Slot { physical: 2, converted: 5, scale: 1, precision: 2, ..LEAF }];
    holds(&first, &second, &[&codes_rise[..], &[places(2, 1, 0)]].concat());
}

#[test]
fn the_roots_match_whatever_their_names_are() {
    let named = |name| [named(root(1), name), LEAF];
    holds(&named(b"r"), &named(b"s"), &[entry(24, 0, b"r", b"s")]);
    holds(&named(b"r"), &named(b"ra"), &[entry(20, 0, &[1], &[2]), entry(24, 0, b"r", b"ra")]);
    // Zero-filled, these names have the same bytes.
    holds(&named(b"r"), &named(b"r\0\0"), &[entry(20, 0, &[1], &[3])]);
    let (long, other) = ([b'x'; 48], [&[b'x'; 47][..], b"y"].concat());
    holds(&named(&long), &named(&other), &[entry(24, 0, &long, &other)]);
    holds(&[root(0)], &named(b"r"), &[entry(6, 0, &[0, 0], &[1, 0]), only_in_second(1, LEAF)]);
}

#[test]
fn a_name_is_its_bytes_at_their_whole_length() {
    let under_root = |name| [root(1), named(LEAF, name)];
    for (one, other) in [(&b"a"[..], &b"a\0"[..]), (b"a\0", b"a\0\0"), (b"a", b"b"), (b"a", b"aa"), (b"\0", b"\0\0")] {
        let (first, second) = (under_root(one), under_root(other));
        holds(&first, &second, &[only_in_first(1, first[1]), only_in_second(1, second[1])]);
    }
}

#[test]
fn siblings_that_share_a_name_match_in_their_order() {
    let other = Slot { physical: 2, ..leaf("a") };
    // One and two of a name: the first match, and the second has none.
    let (one, two) = ([root(1), leaf("a")], [root(2), other, leaf("a")]);
    let claim = entry(6, 0, &[1, 0], &[2, 0]);
    holds(&one, &two, &[claim, entry(0, 1, &[1], &[2]), only_in_second(2, leaf("a"))]);
    let claim = entry(6, 0, &[2, 0], &[1, 0]);
    holds(&two, &one, &[claim, entry(0, 1, &[2], &[1]), only_in_first(2, leaf("a"))]);
    // They match in their order also where they are exchanged, so nothing moved.
    let exchanged = [root(2), leaf("a"), other];
    holds(&two, &exchanged, &[entry(0, 1, &[2], &[1]), entry(0, 2, &[1], &[2])]);
    let (first, second) = (leaves(&["a", "b", "a", "c", "a"]), leaves(&["c", "a", "a", "b", "b"]));
    let listed =
        [places(1, 0, 1), places(2, 1, 3), places(4, 3, 0), only_in_first(5, leaf("a")), only_in_second(5, leaf("b"))];
    holds(&first, &second, &listed);
}

#[test]
fn cousins_do_not_match() {
    let first = [root(2), group("g", 1), leaf("a"), group("h", 1), leaf("b")];
    let second = [root(2), group("g", 1), leaf("b"), group("h", 1), leaf("a")];
    let listed = [
        only_in_first(2, first[2]),
        only_in_first(4, first[4]),
        only_in_second(2, second[2]),
        only_in_second(4, second[4]),
    ];
    holds(&first, &second, &listed);
}

#[test]
fn every_node_below_an_unmatched_one_is_listed() {
    let subtree = [group("g", 2), group("h", 1), leaf("a"), leaf("b")];
    let with = [&[root(3), leaf("x")][..], &subtree, &[leaf("y")]].concat();
    let without = leaves(&["x", "y"]);
    let taken: Vec<Entry> = (0..4).map(|at| only_in_first(at as u16 + 2, subtree[at])).collect();
    holds(&with, &without, &[&[entry(6, 0, &[3, 0], &[2, 0])], &taken[..], &[places(6, 2, 1)]].concat());
    let put_in: Vec<Entry> = (0..4).map(|at| only_in_second(at as u16 + 2, subtree[at])).collect();
    holds(&without, &with, &[&[entry(6, 0, &[2, 0], &[3, 0]), places(2, 1, 2)], &put_in[..]].concat());
    // A group moved to another parent is a node of the first and one of the second; so is a leaf of its name under it.
    let first = [root(2), group("g", 1), leaf("g"), group("h", 1), leaf("x")];
    let second = [root(1), group("h", 2), group("g", 1), leaf("g"), leaf("x")];
    let listed = [
        entry(6, 0, &[2, 0], &[1, 0]),
        only_in_first(1, first[1]),
        only_in_first(2, first[2]),
        entry(6, 3, &[1, 0], &[2, 0]),
        places(3, 1, 0),
        places(4, 0, 1),
        only_in_second(2, second[2]),
        only_in_second(3, second[3]),
    ];
    holds(&first, &second, &listed);
}

#[test]
fn a_leaf_and_a_group_of_one_name_match() {
    let (first, second) = ([root(1), leaf("a")], [root(1), group("a", 1), leaf("a")]);
    let listed = [entry(0, 1, &[1], &[255]), entry(6, 1, &[0, 0], &[1, 0]), only_in_second(2, leaf("a"))];
    holds(&first, &second, &listed);
}

#[test]
fn places_are_counted_among_all_siblings() {
    // The only node that both have stands behind two unmatched ones, and before them.
    let (first, second) = (leaves(&["a", "b", "x"]), leaves(&["x", "c"]));
    let listed = [
        entry(6, 0, &[3, 0], &[2, 0]),
        only_in_first(1, leaf("a")),
        only_in_first(2, leaf("b")),
        places(3, 2, 0),
        only_in_second(2, leaf("c")),
    ];
    holds(&first, &second, &listed);
    // Numbers above 255, of nodes and of places.
    let names: Vec<String> = (0..MAX_NODES - 1).map(|at| format!("{at}")).collect();
    let names: Vec<&str> = names.iter().map(String::as_str).collect();
    let turned: Vec<&str> = names.iter().rev().copied().collect();
    let last = MAX_NODES as u16 - 2;
    let listed: Vec<Entry> =
        (0..=last).filter(|&place| 2 * place != last).map(|place| places(place + 1, place, last - place)).collect();
    holds(&leaves(&names), &leaves(&turned), &listed);
}

fn refused(number: u32, place: u32, at_fault: u32) -> PairRefusal {
    PairRefusal { refusal: Refusal { number, place }, at_fault }
}

/// The refusal of two sheets with so many bytes lent, which are left as they were.
fn refusal_of(edition: u32, first: &[u8], second: &[u8], lent: usize) -> PairRefusal {
    let mut out = vec![9; lent];
    let refusal = compare(edition, first, second, &mut out).unwrap_err();
    assert_eq!(out, vec![9; lent]);
    refusal
}

#[test]
fn refusals_in_their_order() {
    let right = assemble(&leaves(&["a", "b"]));
    let other = assemble(&leaves(&["b", "a"]));
    let shape = assemble(&[root(1), Slot { type_length: 1, ..LEAF }]);
    let mut check = right.clone();
    check[511] ^= 1;
    let mut header = right.clone();
    header[3] = 2;
    renew_checks(&mut header);
    let mut slot = right.clone();
    slot[slot_start(1)] = 9;
    renew_checks(&mut slot);
    let wrong: [(&[u8], u32, u32); 5] = [(&[], 1, 0), (&check, 2, 0), (&header, 3, 0), (&slot, 4, 1), (&shape, 8, 1)];
    for (one, number, place) in wrong {
        for lent in [0, 2 * ENTRY] {
            assert_eq!(refusal_of(FIRST, one, &right, lent), refused(number, place, 1));
            assert_eq!(refusal_of(FIRST, &right, one, lent), refused(number, place, 2));
            // The first sheet's, whatever the second's number is.
            for (two, ..) in wrong {
                assert_eq!(refusal_of(FIRST, one, two, lent), refused(number, place, 1));
            }
            for unknown in [0, 4, 257, u32::MAX] {
                assert_eq!(refusal_of(unknown, one, &right, lent), refused(21, 0, 0));
                assert_eq!(refusal_of(unknown, &right, one, lent), refused(21, 0, 0));
            }
        }
    }
    assert_eq!(refusal_of(4, &right, &right, 0), refused(21, 0, 0));
    for lent in [0, 1, ENTRY, 2 * ENTRY - 1] {
        assert_eq!(refusal_of(FIRST, &right, &other, lent), refused(14, 0, 0));
    }
    assert_eq!(compare(FIRST, &right, &right, &mut []), Ok(0));
    assert_eq!(refused(3, 2, 2).to_string(), "refused 3 at 2 in sheet 2");
    assert_eq!(refused(14, 0, 0).to_string(), "refused 14 at 0");
    assert_eq!(refused(16, 2, 1).to_string(), "refused 16 at 2 in value 1");
}

#[test]
fn both_sheets_are_read_in_the_edition() {
    let plain = assemble(&[root(1), LEAF]);
    let fraction = assemble(&[root(1), Slot { logical: 5, scale: 3, precision: 3, ..LEAF }]);
    assert_eq!(refusal_of(FIRST, &fraction, &plain, 9 * ENTRY), refused(11, 1, 1));
    assert_eq!(refusal_of(FIRST, &plain, &fraction, 9 * ENTRY), refused(11, 1, 2));
    for edition in [SECOND, THIRD] {
        assert_eq!(compare(edition, &plain, &fraction, &mut [0; 3 * ENTRY]), Ok(3));
    }
    let int96 = assemble(&[root(1), Slot { physical: 3, ..LEAF }]);
    assert_eq!(compare(SECOND, &plain, &int96, &mut [0; ENTRY]), Ok(1));
    assert_eq!(refusal_of(THIRD, &int96, &plain, 0), refused(10, 1, 1));
    assert_eq!(refusal_of(THIRD, &plain, &int96, 0), refused(10, 1, 2));
    assert_eq!(refusal_of(THIRD, &int96, &int96, 0), refused(10, 1, 1));
}

#[test]
fn a_list_that_tells_no_sheet() {
    let first = assemble(&leaves(&["a", "b"]));
    let rebuilt = |entries: &[Entry]| rebuild(&first, &entries.iter().flat_map(Entry::to_bytes).collect::<Vec<_>>());
    assert_eq!(rebuilt(&[]), Some(first.clone()));
    // A node and a field that are not there, a place twice, a node too many and one too few.
    assert_eq!(rebuilt(&[places(3, 0, 1)]), None);
    assert_eq!(rebuilt(&[entry(7, 1, &[0], &[1])]), None);
    assert_eq!(rebuilt(&[places(1, 0, 1)]), None);
    assert_eq!(rebuilt(&[entry(6, 0, &[2, 0], &[3, 0])]), None);
    assert_eq!(rebuilt(&[only_in_first(1, leaf("a"))]), None);
    assert_eq!(rebuilt(&[only_in_first(0, root(2))]), None);
    assert_eq!(rebuild(&first, &[0; ENTRY - 1]), None);
    assert_eq!(rebuild(&first[..511], &[]), None);
}
