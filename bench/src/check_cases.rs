//! The checks of blocks, and hardly anything else: a sheet of 128 blocks whose checks are right, and whose block 0 has a wrong
//! header, is refused by 3 at 0 once every check was looked at.

use std::hint::black_box;

use independent::sheet::{renew_checks, BLOCK, MAX_BLOCKS};

use crate::case::{Case, Contender, Goal, INDEPENDENT, LIBRARY};
use crate::linked::{self, answer, answer_of, EDITION};
use crate::native;
use crate::random::Random;

const BLOCK_CHECK: u32 = 2;
const BLOCK_HEADER: u32 = 3;

/// The name of the C loop by `cc`, whose time is to be reached.
const BY_CC: &str = "C loop, cc -O3";
#[cfg(clang)]
const BY_CLANG: &str = "C loop, clang -O3";

pub fn cases() -> Vec<Case<'static>> {
    vec![checks_alone()]
}

fn checks_alone() -> Case<'static> {
    let sheet = refused_by_header();
    agree(&sheet, MAX_BLOCKS);
    for bad in [0, 1, 77, MAX_BLOCKS - 1] {
        let mut changed = sheet.clone();
        changed[BLOCK * bad + 300] ^= 4;
        agree(&changed, bad);
    }
    let items = sheet.len();
    let contenders = vec![
        contender(LIBRARY, &sheet, |sheet| linked::resolve(EDITION, sheet, &mut [])),
        contender(INDEPENDENT, &sheet, |sheet| answer_of(independent::resolve(black_box(EDITION), sheet, &mut []))),
        contender(BY_CC, &sheet, native::first_bad_check_by_cc),
        #[cfg(clang)]
        contender(BY_CLANG, &sheet, native::first_bad_check_by_clang),
    ];
    let input = format!("{MAX_BLOCKS} blocks, block 0 refused by its header");
    Case { entry: "resolve: block checks", input, item: "byte", items, goal: Goal::TimeOf(&[BY_CC]), contenders }
}

fn contender<R>(name: &'static str, sheet: &[u8], work: impl Fn(&[u8]) -> R + 'static) -> Contender<'static> {
    let sheet = sheet.to_vec();
    Contender::new(name, move || {
        black_box(work(black_box(&sheet)));
    })
}

/// A version that there is not, among names that look random.
fn refused_by_header() -> Vec<u8> {
    let mut sheet = vec![0; BLOCK * MAX_BLOCKS];
    Random::new(3).fill(&mut sheet);
    sheet[3] = 9;
    renew_checks(&mut sheet);
    sheet
}

/// Every contender finds the same first bad check, or none.
fn agree(sheet: &[u8], bad: usize) {
    let expected = if bad < MAX_BLOCKS { answer(BLOCK_CHECK, bad as u32) } else { answer(BLOCK_HEADER, 0) };
    assert_eq!(linked::resolve(EDITION, sheet, &mut []), expected);
    assert_eq!(answer_of(independent::resolve(EDITION, sheet, &mut [])), expected);
    assert_eq!(native::first_bad_check_by_cc(sheet), bad);
    #[cfg(clang)]
    assert_eq!(native::first_bad_check_by_clang(sheet), bad);
}
