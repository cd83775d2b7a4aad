//! Boxes of points, and points inside boxes: NaN, zeros, infinities and subnormals, every end of a range and the
//! numbers beside it, odd runs and none, wraparound, every output that is too short, numbers of other kinds, and which
//! refusal comes first.
//!
//! A line is `box KIND LENT` and coordinates, or `inside KIND` with a box and a point; behind a colon `box` has whether
//! the rest of what was lent was kept, and the box that was written, `none` or a refusal; `inside` has `yes`, `no` or a
//! refusal. Doubles stand as the 16 digits of their bits. Which of two equal zeros a bound is does not matter: a bound
//! of zero is written without its sign.

use std::fmt::Write;

use independent::boxes::WIDTH;
use independent::codes::logical::{GEOGRAPHY, GEOMETRY};
use independent::{box_of, inside};

const GEO: [u32; 2] = [GEOMETRY as u32, GEOGRAPHY as u32];

/// Numbers near both, and numbers that have their bits below or above others.
const NO_KINDS: [u32; 11] = [0, 14, 15, 16, 19, 20, 255, 273, 274, 1 << 31 | 17, u32::MAX];

/// The greatest coordinate of each axis of a GEOGRAPHY.
const ENDS: [f64; 2] = [180.0, 90.0];

const NAN: f64 = f64::from_bits(0x7FF8 << 48);
const INFINITY: f64 = f64::INFINITY;
const SUBNORMAL: f64 = f64::from_bits(1);

/// NaN of both signs, quiet and not, with other bits set.
fn nans() -> [f64; 5] {
    [0x7FF8 << 48, 0xFFF8 << 48, 0x7FF0 << 48 | 1, 0xFFF0 << 48 | 1, u64::MAX].map(f64::from_bits)
}

pub fn answers(_: &[u8]) -> Vec<u8> {
    let mut lines = Lines::default();
    for part in [
        kinds,
        single_points,
        ranges,
        odd_runs,
        skipped,
        several,
        outputs,
        membership,
        wraparound,
        wrong_boxes,
        tested_points,
    ] {
        part(&mut lines);
    }
    lines.0.into()
}

/// Each kind that has no boxes, also where all else is wrong; and both that have them.
fn kinds(lines: &mut Lines) {
    for kind in NO_KINDS.into_iter().chain(GEO) {
        for points in [&[1.0, 2.0][..], &[], &[NAN, NAN], &[1.0], &[200.0, 2.0], &[200.0]] {
            lines.points(kind, WIDTH, points);
            lines.points(kind, 0, points);
        }
        lines.tested(kind, [0.0, 2.0, 0.0, 2.0], [1.0, 1.0]);
        lines.tested(kind, [0.0, NAN, 0.0, 2.0], [1.0, 200.0]);
    }
}

/// Every two of numbers that are special as a point by itself.
fn single_points(lines: &mut Lines) {
    let special = [0.0, -0.0, SUBNORMAL, -SUBNORMAL, 1.0, -1.0, f64::MAX, f64::MIN, INFINITY, -INFINITY, NAN, -NAN];
    for kind in GEO {
        for x in special {
            for y in special {
                lines.points(kind, WIDTH, &[x, y]);
            }
        }
        for nan in nans() {
            for points in [[nan, 1.0, 2.0, nan], [nan, 1.0, nan, 2.0], [1.0, nan, 2.0, nan], [1.0, nan, nan, 2.0]] {
                lines.points(kind, WIDTH, &points);
            }
        }
    }
}

/// A number, and those one bit beside it.
fn about(number: f64) -> [f64; 3] {
    [number.next_down(), number, number.next_up()]
}

/// Each end of the range of each axis and the numbers one bit beside it: as a coordinate, first, last and beside a NaN;
/// as each bound; and as a coordinate of a point that is tested. The ends of one axis also on the other.
fn ranges(lines: &mut Lines) {
    for kind in GEO {
        for end in ENDS {
            for number in [end, -end].into_iter().flat_map(about) {
                for points in
                    [[number, 1.0, 2.0, 3.0], [1.0, number, 2.0, 3.0], [1.0, 2.0, number, 3.0], [1.0, 2.0, 3.0, number]]
                {
                    lines.points(kind, WIDTH, &points);
                }
                // Whether or not the other axis has any.
                for points in [[number, NAN], [NAN, number]] {
                    lines.points(kind, WIDTH, &points);
                }
                for at in 0..WIDTH {
                    let mut bounds = [-80.0, 80.0, -80.0, 80.0];
                    bounds[at] = number;
                    lines.tested(kind, bounds, [1.0, 1.0]);
                }
                lines.tested(kind, [-180.0, 180.0, -90.0, 90.0], [number, 1.0]);
                lines.tested(kind, [-180.0, 180.0, -90.0, 90.0], [1.0, number]);
                lines.tested(kind, [-180.0, 180.0, -90.0, 90.0], [number, NAN]);
                lines.tested(kind, [-180.0, 180.0, -90.0, 90.0], [NAN, number]);
            }
        }
    }
}

/// Odd numbers of coordinates, also where some are out of their range or none counts.
fn odd_runs(lines: &mut Lines) {
    for kind in GEO {
        for filled in [1.0, 200.0, INFINITY, NAN] {
            for length in [1, 3, 5, 7, 101] {
                for lent in [0, WIDTH] {
                    lines.points(kind, lent, &vec![filled; length]);
                }
            }
        }
    }
}

/// No coordinates, and those that are NaN in each of their places among three points.
fn skipped(lines: &mut Lines) {
    for kind in GEO {
        lines.points(kind, WIDTH, &[]);
        for places in 0..1 << 6 {
            let mut points = [3.0, -30.0, -1.0, 20.0, 2.0, 10.0];
            (0..points.len()).filter(|at| places >> at & 1 == 1).for_each(|at| points[at] = NAN);
            lines.points(kind, WIDTH, &points);
        }
        // An axis without any, and a coordinate out of range on the other.
        for points in [[NAN, 91.0, NAN, 1.0], [NAN, 1.0, NAN, -91.0], [181.0, NAN, 1.0, NAN], [1.0, NAN, -181.0, NAN]] {
            lines.points(kind, WIDTH, &points);
        }
    }
}

/// Runs of points that rise, fall and turn, with both zeros, with bounds that come first, last and several times, and
/// one bit apart.
fn several(lines: &mut Lines) {
    let (below, above) = (1.0_f64.next_down(), 1.0_f64.next_up());
    for kind in GEO {
        for points in [
            &[1.0, 2.0, 3.0, 4.0, 5.0, 6.0][..],
            &[5.0, 6.0, 3.0, 4.0, 1.0, 2.0],
            &[3.0, -4.0, -1.0, 6.0, 5.0, 2.0, -3.0, 4.0],
            &[1.0, 1.0, 1.0, 1.0],
            &[0.0, -0.0, -0.0, 0.0],
            &[-0.0, -0.0, 0.0, 0.0],
            &[-0.0, 5.0, 0.0, -5.0, SUBNORMAL, SUBNORMAL, -SUBNORMAL, -SUBNORMAL],
            &[below, above, 1.0, 1.0, above, below],
            &[-below, -above, -1.0, -1.0, -above, -below],
            &[-1.0, -2.0, -3.0, -4.0],
            &[180.0, 90.0, -180.0, -90.0],
            &[170.0, 0.0, -170.0, 0.0],
            &[INFINITY, 1.0, -INFINITY, 2.0],
            &[f64::MAX, f64::MIN, f64::MIN, f64::MAX],
        ] {
            lines.points(kind, WIDTH, points);
        }
    }
}

/// Outputs too short, just enough and longer, for a box, no box and each refusal.
fn outputs(lines: &mut Lines) {
    for kind in GEO.into_iter().chain([16]) {
        for points in [&[1.0, 2.0, 3.0, 4.0][..], &[NAN, 2.0], &[], &[1.0], &[1.0, 91.0], &[NAN, 91.0]] {
            for lent in [0, 1, 2, 3, 4, 5, 6, 40] {
                lines.points(kind, lent, points);
            }
        }
    }
}

/// Points at each bound of a box and one bit beside it, in boxes that are wide, of one number and of zeros.
fn membership(lines: &mut Lines) {
    for kind in GEO {
        for bounds in [[-10.0, 20.0, -30.0, 40.0], [5.0; WIDTH], [0.0, -0.0, -0.0, 0.0], [-0.0, 0.0, 0.0, -0.0]] {
            let [xmin, xmax, ymin, ymax] = bounds;
            for x in [xmin, xmax].into_iter().flat_map(about).chain([0.0, -0.0]) {
                lines.tested(kind, bounds, [x, ymin]);
                lines.tested(kind, bounds, [x, 80.0]);
            }
            for y in [ymin, ymax].into_iter().flat_map(about).chain([0.0, -0.0]) {
                lines.tested(kind, bounds, [xmin, y]);
                lines.tested(kind, bounds, [80.0, y]);
            }
        }
        let all = [-INFINITY, INFINITY, -INFINITY, INFINITY];
        for point in [[0.0, 0.0], [INFINITY, -INFINITY], [f64::MAX, f64::MIN], [NAN, 0.0], [0.0, NAN]] {
            lines.tested(kind, all, point);
            lines.tested(kind, [INFINITY, INFINITY, -INFINITY, -INFINITY], point);
        }
    }
}

/// Boxes whose xmin is above their xmax, and points at and beside their bounds, between them and beyond.
fn wraparound(lines: &mut Lines) {
    for kind in GEO {
        for bounds in [
            [170.0, -170.0, -10.0, 10.0],
            [1.0_f64.next_up(), 1.0, 0.0, 0.0],
            [180.0, -180.0, -90.0, 90.0],
            [20.0, 10.0, 0.0, 1.0],
        ] {
            let [xmin, xmax, ymin, ymax] = bounds;
            let near = [xmin, xmax].into_iter().flat_map(about);
            for x in near.chain([0.0, 15.0, 179.0, -179.0, 180.0, -180.0, INFINITY, -INFINITY, NAN]) {
                for y in [ymin, ymax, ymax.next_up()] {
                    lines.tested(kind, bounds, [x, y]);
                }
            }
        }
    }
}

/// Boxes with a NaN in each place, with ymin above ymax, and with both, before points that are wrong too.
fn wrong_boxes(lines: &mut Lines) {
    for kind in GEO {
        for point in [[1.0, 1.0], [NAN, 1.0], [1.0, NAN], [200.0, 1.0], [1.0, -200.0]] {
            for at in 0..WIDTH {
                for nan in nans() {
                    let mut bounds = [0.0, 2.0, 0.0, 2.0];
                    bounds[at] = nan;
                    lines.tested(kind, bounds, point);
                }
            }
            lines.tested(kind, [0.0, 2.0, 2.0, 0.0], point);
            lines.tested(kind, [0.0, 2.0, 1.0_f64.next_up(), 1.0], point);
            lines.tested(kind, [0.0, 2.0, 0.0, -SUBNORMAL], point);
            lines.tested(kind, [2.0, 0.0, 2.0, 0.0], point);
            lines.tested(kind, [200.0, 0.0, 2.0, 0.0], point);
        }
    }
}

/// Points with a NaN, with a coordinate out of range, and with both, in and beside a box.
fn tested_points(lines: &mut Lines) {
    let some = [1.0, 50.0, 95.0, -95.0, 185.0, -185.0, INFINITY, -INFINITY, NAN, -NAN];
    for kind in GEO {
        for x in some {
            for y in some {
                lines.tested(kind, [0.0, 2.0, 0.0, 2.0], [x, y]);
            }
        }
    }
}

/// What lent numbers hold before.
const MARK: u64 = 0x5A5A_5A5A_5A5A_5A5A;

#[derive(Default)]
struct Lines(String);

impl Lines {
    /// A line of points, and their box in so many lent numbers.
    fn points(&mut self, kind: u32, lent: usize, points: &[f64]) {
        let mut out = vec![f64::from_bits(MARK); lent];
        let answer = box_of(kind, points, &mut out);
        let (written, rest) = out.split_at(answer.map_or(0, |count| count as usize));
        let kept = if rest.iter().all(|number| number.to_bits() == MARK) { "kept" } else { "not kept" };
        let told = match answer {
            // A zero and a positive zero have the sum without a sign.
            Ok(4) => text(&written.iter().map(|bound| bound + 0.0).collect::<Vec<_>>()),
            Ok(_) => " none".to_string(),
            Err(refusal) => format!(" refused {}", refusal.number),
        };
        writeln!(self.0, "box {kind} {lent}{}: {kept}{told}", text(points)).unwrap();
    }

    /// A line of a box and a point, and whether that is inside.
    fn tested(&mut self, kind: u32, bounds: [f64; WIDTH], [x, y]: [f64; 2]) {
        let told = match inside(kind, bounds, x, y) {
            Ok(true) => "yes".to_string(),
            Ok(false) => "no".to_string(),
            Err(refusal) => format!("refused {}", refusal.number),
        };
        writeln!(self.0, "inside {kind}{}{}: {told}", text(&bounds), text(&[x, y])).unwrap();
    }
}

/// The bits of each number behind a blank.
fn text(numbers: &[f64]) -> String {
    numbers.iter().map(|number| format!(" {:016x}", number.to_bits())).collect()
}
