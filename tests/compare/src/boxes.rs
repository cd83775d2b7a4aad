//! Boxes of points, and points inside boxes: random ones and those at every edge, held to what document 02's R-11 says
//! of them.

use independent::boxes::WIDTH;
use independent::codes::logical;

use crate::comparison::{broken, Comparison, Difference};
use crate::random::Random;
use crate::side::refusal_of;

/// The kinds that have boxes.
pub const KINDS: [u32; 2] = [logical::GEOMETRY as u32, logical::GEOGRAPHY as u32];

/// The greatest coordinate of each axis of a GEOGRAPHY.
pub const ENDS: [f64; 2] = [180.0, 90.0];

/// A kind: one that has boxes nearly always.
pub fn kind(random: &mut Random) -> u32 {
    let any = random.any() as u32;
    let [one, other] = KINDS;
    if random.percent(4) {
        random.pick(&[0, one - 3, one - 2, one - 1, other + 1, 256 + one, 1 << 31 | other, u32::MAX, any])
    } else {
        random.pick(&KINDS)
    }
}

/// Where coordinates are drawn from.
#[derive(Clone, Copy)]
enum Source {
    /// A few small numbers, so that many are equal.
    Few,
    /// The range of a GEOGRAPHY, its ends often.
    InRange,
    /// Any double, the special ones often.
    Any,
}

fn source(random: &mut Random) -> Source {
    random.pick(&[Source::Few, Source::InRange, Source::InRange, Source::Any])
}

impl Source {
    /// A coordinate of an axis that is no NaN.
    fn draw(self, random: &mut Random, axis: usize) -> f64 {
        let end = ENDS[axis];
        let signed = |number: f64, is_negative: bool| if is_negative { -number } else { number };
        let small = random.below(4) as f64;
        let tiny = f64::from_bits(random.pick(&[1, 2, (1 << 52) - 1, 1 << 52, 1 << 40]));
        let number = match self {
            Source::Few => random.pick(&[small, small, small, tiny]),
            Source::InRange => {
                let any = random.any() as f64 / u64::MAX as f64 * end;
                random.pick(&[small, any, any, any.floor(), end, end.next_down(), 0.0, tiny])
            }
            Source::Any => {
                let any = f64::from_bits(random.any() >> 1);
                let other_end = ENDS[1 - axis];
                let near = random.pick(&[end, other_end]);
                let near = random.pick(&[near, near.next_up(), near.next_down()]);
                random.pick(&[
                    near,
                    near,
                    small,
                    tiny,
                    0.0,
                    f64::INFINITY,
                    f64::MAX,
                    if any.is_nan() { end } else { any },
                ])
            }
        };
        signed(number, random.percent(50))
    }
}

/// A NaN of either sign, quiet or not, with other bits set.
fn nan(random: &mut Random) -> f64 {
    let any = random.any() >> 12 | 1;
    let fraction = random.pick(&[1, 1 << 51, (1 << 52) - 1, any]);
    f64::from_bits((random.any() & 1) << 63 | 0x7FF << 52 | fraction)
}

/// Points, x and y in turn, some of their coordinates NaN; at times an odd number of coordinates.
pub fn points(random: &mut Random) -> Vec<f64> {
    let count = match random.below(20) {
        0 => 0,
        1 => random.between(20, 300),
        _ => random.between(1, 8),
    };
    let from = source(random);
    // One axis alone may have many NaN, so that it has no other coordinate.
    let nans = [(); 2].map(|()| random.pick(&[0, 0, 0, 20, 50, 90, 100]));
    let mut points: Vec<f64> = Vec::with_capacity(2 * count);
    for at in 0..2 * count {
        let number = if random.percent(nans[at % 2]) { nan(random) } else { from.draw(random, at % 2) };
        points.push(number);
    }
    if !points.is_empty() && random.percent(8) {
        let at = random.below(points.len());
        points[at] = Source::Any.draw(random, at % 2);
    }
    if random.percent(5) {
        points.push(Source::Any.draw(random, 0));
    }
    points
}

/// A box: in order or going around most of the time, else with a bound that is a NaN or any.
pub fn bounds(random: &mut Random) -> [f64; WIDTH] {
    let from = source(random);
    let mut bounds = [0, 0, 1, 1].map(|axis| from.draw(random, axis));
    if bounds[2] > bounds[3] && random.percent(85) {
        bounds.swap(2, 3);
    }
    if bounds[0] > bounds[1] && random.percent(40) {
        bounds.swap(0, 1);
    }
    if random.percent(10) {
        let at = random.below(WIDTH);
        bounds[at] = if random.percent(40) { nan(random) } else { Source::Any.draw(random, at / 2) };
    }
    bounds
}

/// A point: at the bounds of a box or one bit beside them, or from elsewhere; a coordinate may be a NaN.
pub fn point(random: &mut Random, bounds: [f64; WIDTH]) -> [f64; 2] {
    let from = source(random);
    [0, 1].map(|axis| {
        let bound = bounds[2 * axis + random.below(2)];
        let any = from.draw(random, axis);
        let beside = if bound.is_nan() { any } else { random.pick(&[bound.next_up(), bound.next_down()]) };
        if random.percent(6) {
            nan(random)
        } else {
            random.pick(&[bound, beside, any, any])
        }
    })
}

/// Finds the box of points with so many numbers lent, and holds it to what is said of it: there is none exactly where
/// an axis has no coordinate that counts; each that counts is from its axis's least bound to its greatest, and each
/// bound equals one; and each point that has no NaN is inside.
pub fn found(comparison: &mut Comparison, kind: u32, points: &[f64], lent: usize) -> Result<(), Difference> {
    let answer = comparison.box_of(kind, points, lent)?;
    if refusal_of(answer) != 0 {
        return Ok(());
    }
    let wrong = |what: &str| Err(broken("box_of", format!("{what}: kind {kind}, points {points:?}"), &[]));
    let counted = |axis: usize| points.iter().skip(axis).step_by(2).copied().filter(|number| !number.is_nan());
    let is_empty = (0..2).any(|axis| counted(axis).next().is_none());
    if (answer == 0) != is_empty {
        return wrong("no box beside coordinates of both axes, or a box without them");
    }
    if is_empty {
        return Ok(());
    }
    let bounds = comparison.bounds();
    for axis in 0..2 {
        let [least, greatest] = [bounds[2 * axis], bounds[2 * axis + 1]];
        if !counted(axis).all(|number| least <= number && number <= greatest) {
            return wrong("a coordinate beyond the bounds");
        }
        if ![least, greatest].into_iter().all(|bound| counted(axis).any(|number| number == bound)) {
            return wrong("a bound that no coordinate equals");
        }
    }
    const MOST_TESTED: usize = 8;
    for point in points.chunks_exact(2).filter(|point| !point[0].is_nan() && !point[1].is_nan()).take(MOST_TESTED) {
        if comparison.inside(kind, bounds, point[0], point[1])? != 1 {
            return wrong("a point that is not inside its own box");
        }
    }
    Ok(())
}

/// Tests whether a point is inside a box, and holds an answer to what is said of it.
pub fn tested(
    comparison: &mut Comparison,
    kind: u32,
    bounds: [f64; WIDTH],
    [x, y]: [f64; 2],
) -> Result<(), Difference> {
    let answer = comparison.inside(kind, bounds, x, y)?;
    if refusal_of(answer) != 0 {
        return Ok(());
    }
    let [xmin, xmax, ymin, ymax] = bounds;
    let in_x = if xmin > xmax { x >= xmin || x <= xmax } else { x >= xmin && x <= xmax };
    let is_inside = in_x && y >= ymin && y <= ymax;
    if answer == u64::from(is_inside) {
        return Ok(());
    }
    Err(broken("inside", format!("answered {answer}: kind {kind}, box {bounds:?}, point {x:?} {y:?}"), &[]))
}
