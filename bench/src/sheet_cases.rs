//! Sheets resolved into rows, and rewritten.

use std::hint::black_box;

use independent::codes::{converted, logical};
use independent::edition::THIRD;
use independent::ROW_WIDTH;

use crate::case::{Case, Contender, Goal, INDEPENDENT, LIBRARY};
use crate::linked::{self, answer, answer_of, EDITION};
use crate::shapes::{leaves, SHAPES};

/// The numbers of nodes. Each fills its blocks.
pub const SIZES: [usize; 4] = [7, 70, 448, 896];

pub const RESOLVE: &str = "resolve";
pub const REWRITE: &str = "rewrite";

pub fn cases() -> Vec<Case<'static>> {
    let mut cases = Vec::new();
    for make in [resolving, rewriting] {
        for (shape, sheet_of) in SHAPES {
            for nodes in SIZES {
                cases.push(make(EDITION, shape, nodes, sheet_of(nodes)));
            }
        }
    }
    cases.extend(alike());
    cases
}

/// The greatest sheets of leaves of GEOGRAPHY, and of STRING beside them, resolved in the third edition, which alone
/// has both.
fn alike() -> impl Iterator<Item = Case<'static>> {
    const NODES: usize = SIZES[SIZES.len() - 1];
    [("STRING leaves", logical::STRING), ("GEOGRAPHY leaves", logical::GEOGRAPHY)].into_iter().map(|(shape, code)| {
        let sheet = leaves([converted::NONE, code, 0, 0], NODES);
        Case { goal: Goal::IndependentSpeed, ..resolving(THIRD, shape, NODES, sheet) }
    })
}

fn case(entry: &'static str, shape: &'static str, nodes: usize, contenders: Vec<Contender<'static>>) -> Case<'static> {
    let input = format!("{shape}, {nodes} nodes");
    Case { entry, input, item: "node", items: nodes, goal: Goal::Sheet { shape, nodes }, contenders }
}

fn resolving(edition: u32, shape: &'static str, nodes: usize, sheet: Vec<u8>) -> Case<'static> {
    let mut rows = vec![0; ROW_WIDTH * nodes];
    let mut other_rows = vec![0; ROW_WIDTH * nodes];
    assert_eq!(linked::resolve(edition, &sheet, &mut rows), answer(0, nodes as u32));
    assert_eq!(answer_of(independent::resolve(edition, &sheet, &mut other_rows)), answer(0, nodes as u32));
    assert_eq!(rows, other_rows);
    let same = sheet.clone();
    let library = Contender::new(LIBRARY, move || {
        black_box(linked::resolve(black_box(edition), black_box(&sheet), black_box(&mut rows)));
    });
    let independent = Contender::new(INDEPENDENT, move || {
        black_box(independent::resolve(black_box(edition), black_box(&same), black_box(&mut other_rows)))
            .expect("a lawful sheet");
    });
    case(RESOLVE, shape, nodes, vec![library, independent])
}

fn rewriting(edition: u32, shape: &'static str, nodes: usize, sheet: Vec<u8>) -> Case<'static> {
    let mut out = vec![0; sheet.len()];
    let mut other_out = vec![0; sheet.len()];
    assert_eq!(linked::rewrite(edition, &sheet, &mut out, 0), answer(0, sheet.len() as u32));
    assert_eq!(answer_of(independent::rewrite(edition, &sheet, &mut other_out, 0)), answer(0, sheet.len() as u32));
    assert_eq!(out, other_out);
    let same = sheet.clone();
    let library = Contender::new(LIBRARY, move || {
        black_box(linked::rewrite(black_box(edition), black_box(&sheet), black_box(&mut out), black_box(0)));
    });
    let independent = Contender::new(INDEPENDENT, move || {
        black_box(independent::rewrite(black_box(edition), black_box(&same), black_box(&mut other_out), black_box(0)))
            .expect("lawful");
    });
    case(REWRITE, shape, nodes, vec![library, independent])
}
