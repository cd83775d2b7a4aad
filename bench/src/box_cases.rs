//! The box of a million points, and a hundred thousand of them tested, beside plain C.

use std::hint::black_box;
use std::rc::Rc;

use independent::codes::logical::{GEOGRAPHY, GEOMETRY};

use crate::case::{Case, Contender, Goal, INDEPENDENT, LIBRARY};
use crate::linked::{self, answer, answer_of};
use crate::native;
use crate::random::Random;

const POINTS: usize = 1_000_000;
/// The coordinates of those that are tested, and that the independent reader puts in order before anyone is timed.
const FIRST: usize = 200_000;

/// The numbers of a box.
const WIDTH: usize = 4;

const BY_CC: &str = "C loop, cc -O2";
const CALLS_BY_CC: &str = "C, cc -O2";

const KINDS: [(&str, u32); 2] = [("GEOMETRY", GEOMETRY as u32), ("GEOGRAPHY", GEOGRAPHY as u32)];

/// A box that goes around, and has about half of the points.
const AROUND: [f64; WIDTH] = [90.0, -60.0, -70.0, 75.0];

const NO_LENGTH: u32 = 15;
const BROKEN: u32 = 16;

pub fn cases() -> Vec<Case<'static>> {
    for (_, kind) in KINDS {
        odd_ones(kind);
    }
    let inputs = [("no NaN", 0), ("one coordinate in ten NaN", 10)].map(|(words, nans)| (words, points(nans)));
    let mut cases = Vec::new();
    for (name, kind) in KINDS {
        for (words, points) in &inputs {
            cases.push(boxes(format!("{name}, a million points, {words}"), kind, points.clone()));
        }
    }
    let first: Rc<[f64]> = inputs[0].1[..FIRST].into();
    let tested = KINDS.map(|(name, kind)| tested(format!("{name}, a hundred thousand points"), kind, first.clone()));
    cases.extend(tested);
    cases
}

/// Points all over the range of GEOGRAPHY, so many coordinates in a hundred NaN.
fn points(nans: i64) -> Rc<[f64]> {
    let mut random = Random::new(23);
    let mut within = |end: i64| {
        const PARTS: i64 = 1 << 40;
        let number = random.between(-end * PARTS, end * PARTS + 1) as f64 / PARTS as f64;
        if random.between(0, 100) < nans {
            f64::NAN
        } else {
            number
        }
    };
    (0..POINTS).flat_map(|_| [within(180), within(90)]).collect()
}

fn boxes(input: String, kind: u32, points: Rc<[f64]>) -> Case<'static> {
    found(kind, &points[..FIRST], answer(0, WIDTH as u32));
    let by_library = written(|bounds| linked::box_of(kind, &points, bounds));
    let by_cc = written(|bounds| native::plain_box(is_geography(kind), &points, bounds));
    assert_eq!((by_library.0, by_cc.0, by_library.1), (answer(0, WIDTH as u32), 1, by_cc.1));
    let [by_library, by_independent, by_cc] = [(); 3].map(|()| points.clone());
    let contenders = vec![
        Contender::new(LIBRARY, move || {
            black_box(written(|bounds| linked::box_of(black_box(kind), black_box(&by_library), bounds)));
        }),
        // It puts all coordinates in order.
        Contender::new(INDEPENDENT, move || {
            black_box(written(|bounds| {
                answer_of(independent::box_of(black_box(kind), black_box(&by_independent), bounds))
            }));
        })
        .slow(),
        Contender::new(BY_CC, move || {
            black_box(written(|bounds| native::plain_box(black_box(is_geography(kind)), black_box(&by_cc), bounds)));
        }),
    ];
    Case { entry: "box", input, item: "point", items: POINTS, goal: Goal::FifthAbove(BY_CC), contenders }
}

fn tested(input: String, kind: u32, points: Rc<[f64]>) -> Case<'static> {
    for point in points.chunks_exact(2).take(1_000) {
        inside(kind, AROUND, [point[0], point[1]], None);
    }
    let calls = |name, test: fn(u32, f64, f64) -> u64| {
        let points = points.clone();
        Contender::new(name, move || {
            for point in black_box(&points[..]).chunks_exact(2) {
                black_box(test(kind, point[0], point[1]));
            }
        })
    };
    let contenders = vec![
        calls(LIBRARY, |kind, x, y| linked::inside(kind, AROUND, x, y)),
        calls(INDEPENDENT, |kind, x, y| answer_of(independent::inside(kind, AROUND, x, y).map(u32::from))),
        calls(CALLS_BY_CC, |kind, x, y| native::plain_inside(is_geography(kind), AROUND, x, y) as u64),
    ];
    Case { entry: "inside", input, item: "call", items: points.len() / 2, goal: Goal::None, contenders }
}

fn is_geography(kind: u32) -> bool {
    kind == GEOGRAPHY.into()
}

/// Lends room for a box, and gives what was answered and written.
fn written<R>(write: impl FnOnce(&mut [f64; WIDTH]) -> R) -> (R, [f64; WIDTH]) {
    let mut bounds = [7.0; WIDTH];
    let answer = write(&mut bounds);
    (answer, bounds)
}

/// Every contender finds the same box, or none, or refuses the points.
fn found(kind: u32, points: &[f64], expected: u64) {
    let (said, bounds) = written(|bounds| linked::box_of(kind, points, bounds));
    assert_eq!(said, expected);
    let (by_independent, of_independent) = written(|bounds| independent::box_of(kind, points, bounds));
    assert_eq!((answer_of(by_independent), of_independent), (said, bounds));
    if expected != answer(NO_LENGTH, 0) {
        let (by_cc, of_cc) = written(|bounds| native::plain_box(is_geography(kind), points, bounds));
        let expected = match by_cc {
            0 => answer(0, 0),
            1 => answer(0, WIDTH as u32),
            _ => answer(BROKEN, 0),
        };
        assert_eq!((expected, of_cc), (said, bounds));
    }
}

/// Every contender finds a point inside, or outside, or refuses it.
fn inside(kind: u32, bounds: [f64; WIDTH], [x, y]: [f64; 2], expected: Option<u64>) {
    let said = linked::inside(kind, bounds, x, y);
    assert_eq!(said, expected.unwrap_or(said));
    assert_eq!(answer_of(independent::inside(kind, bounds, x, y).map(u32::from)), said);
    let by_cc = native::plain_inside(is_geography(kind), bounds, x, y);
    assert_eq!(u64::try_from(by_cc).unwrap_or(answer(BROKEN, 0)), said);
}

/// Points and boxes that are not timed: NaN alone, none, an odd number, numbers out of range, boxes that are none.
fn odd_ones(kind: u32) {
    const NAN: f64 = f64::NAN;
    found(kind, &[], answer(0, 0));
    found(kind, &[NAN, 1.0, NAN, 2.0], answer(0, 0));
    found(kind, &[1.0, NAN, NAN, -2.0], answer(0, WIDTH as u32));
    found(kind, &[1.0, 2.0, 3.0], answer(NO_LENGTH, 0));
    let broken = is_geography(kind).then_some(answer(BROKEN, 0));
    found(kind, &[180.5, 0.0, 1.0, 1.0], broken.unwrap_or(answer(0, WIDTH as u32)));
    found(kind, &[NAN, -90.5], broken.unwrap_or(answer(0, 0)));
    inside(kind, AROUND, [90.0, 75.0], Some(1));
    inside(kind, AROUND, [0.0, 0.0], Some(0));
    inside(kind, AROUND, [NAN, 0.0], Some(0));
    inside(kind, [0.0, 1.0, 1.0, 0.0], [0.0, 0.0], Some(answer(BROKEN, 0)));
    inside(kind, [0.0, NAN, 0.0, 1.0], [0.0, 0.0], Some(answer(BROKEN, 0)));
    inside(kind, AROUND, [180.5, NAN], Some(broken.unwrap_or(0)));
    inside(kind, [181.0, -60.0, -70.0, 75.0], [-170.0, 0.0], Some(broken.unwrap_or(1)));
}
