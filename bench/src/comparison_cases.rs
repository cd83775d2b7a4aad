//! Two sheets of the most nodes compared: equal, with one field changed, and with siblings in another order or with no name in common.

use std::hint::black_box;

use independent::compare::{differences, ENTRY};
use independent::refusal::{OUTPUT, SHEET_LENGTH};
use independent::sheet::{renew_checks, slot_start, MAX_NODES};
use independent::{PairRefusal, Refusal};

use crate::case::{Case, Contender, Goal, INDEPENDENT, LIBRARY};
use crate::linked::{self, answer, pair_answer_of, EDITION};
use crate::random::Random;
use crate::shapes::{columns, name, SHAPES};

/// The most siblings.
const SIBLINGS: usize = MAX_NODES - 1;
/// Where in a slot its repetition stands.
const REPETITION: usize = 1;

/// Gives a column of a number its name.
type Namer = fn(usize) -> String;

/// Names of siblings, in words.
const NAMES: [(&str, Namer); 2] = [("names of several lengths", name), ("names alike in 40 bytes", name_alike)];

pub fn cases() -> Vec<Case<'static>> {
    let mut cases = Vec::new();
    for (shape, sheet_of) in SHAPES {
        let sheet = sheet_of(MAX_NODES);
        cases.push(comparing(format!("equal, {shape}"), Goal::EqualSheets { shape }, &sheet, &sheet));
        let changed = with_last_changed(&sheet);
        cases.push(comparing(format!("one field changed, {shape}"), Goal::IndependentSpeed, &sheet, &changed));
    }
    let in_order: Vec<usize> = (0..SIBLINGS).collect();
    let reversed: Vec<usize> = in_order.iter().rev().copied().collect();
    let shuffled = shuffled();
    let others: Vec<usize> = (SIBLINGS..2 * SIBLINGS).collect();
    for (names, name) in NAMES {
        let first = columns(&in_order, name);
        for (order, goal, numbers) in [
            ("in reverse", Goal::Millisecond, &reversed),
            ("shuffled", Goal::IndependentSpeed, &shuffled),
            ("with no name in common", Goal::IndependentSpeed, &others),
        ] {
            cases.push(comparing(
                format!("{SIBLINGS} siblings {order}, {names}"),
                goal,
                &first,
                &columns(numbers, name),
            ));
        }
    }
    let [first, second] = [&in_order, &shuffled].map(|numbers| columns(numbers, |_| "one_name".into()));
    cases.push(comparing(
        format!("{SIBLINGS} siblings of one name, shuffled"),
        Goal::IndependentSpeed,
        &first,
        &second,
    ));
    cases
}

/// A name that only its last bytes tell from the others.
fn name_alike(at: usize) -> String {
    format!("a_name_that_begins_as_all_the_others_do_{at}")
}

/// The numbers of the siblings in an order that looks random and is the same in every run.
fn shuffled() -> Vec<usize> {
    let mut numbers: Vec<usize> = (0..SIBLINGS).collect();
    let mut random = Random::new(11);
    for at in 1..SIBLINGS {
        numbers.swap(at, random.between(0, at as i64 + 1) as usize);
    }
    numbers
}

/// The sheet with another repetition of its last node, which is a leaf in every shape, required or optional.
fn with_last_changed(sheet: &[u8]) -> Vec<u8> {
    let mut changed = sheet.to_vec();
    changed[slot_start(MAX_NODES - 1) + REPETITION] ^= 1;
    renew_checks(&mut changed);
    changed
}

fn comparing(input: String, goal: Goal, first: &[u8], second: &[u8]) -> Case<'static> {
    let entries = differences(EDITION, first, second).expect("two lawful sheets").len();
    agree(first, second, entries);
    let mut out = vec![0; ENTRY * entries];
    let mut other_out = out.clone();
    let sheets = [first.to_vec(), second.to_vec()];
    let same = sheets.clone();
    let library = Contender::new(LIBRARY, move || {
        let [first, second] = black_box(&sheets);
        black_box(linked::compare(black_box(EDITION), first, second, black_box(&mut out)));
    });
    let independent = Contender::new(INDEPENDENT, move || {
        let [first, second] = black_box(&same);
        black_box(independent::compare(black_box(EDITION), first, second, black_box(&mut other_out)))
            .expect("two lawful sheets");
    });
    let contenders = vec![library, independent];
    Case { entry: "compare", input, item: "node", items: MAX_NODES, goal, contenders }
}

/// Both give the list of so many entries, and refuse alike too few bytes and either sheet cut short.
fn agree(first: &[u8], second: &[u8], entries: usize) {
    let enough = ENTRY * entries;
    both(first, second, enough, answer(0, entries as u32));
    if entries > 0 {
        both(first, second, enough - 1, answer(OUTPUT, 0));
    }
    let cut = &second[..second.len() - 1];
    let refusal = Refusal::whole(SHEET_LENGTH);
    both(cut, second, enough, pair_answer_of(Err(PairRefusal::of_first(refusal))));
    both(first, cut, enough, pair_answer_of(Err(PairRefusal::of_second(refusal))));
}

/// Both give an answer and leave the same.
fn both(first: &[u8], second: &[u8], lent: usize, expected: u64) {
    let (mut out, mut other_out) = (vec![9; lent], vec![9; lent]);
    assert_eq!(linked::compare(EDITION, first, second, &mut out), expected);
    assert_eq!(pair_answer_of(independent::compare(EDITION, first, second, &mut other_out)), expected);
    assert_eq!(out, other_out);
}
