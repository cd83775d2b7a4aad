//! Boxes of points, by document 02's R-11: the bounds of a list of coordinates, and whether a point is inside a box.
//! Coordinates are compared as document 01 orders DOUBLE: by the whole numbers that their bits stand for.

use crate::codes::logical;
use crate::refusal::{self, Refusal};

/// The numbers of a box: xmin, xmax, ymin, ymax.
pub const WIDTH: usize = 4;

/// What has boxes.
#[derive(Clone, Copy, PartialEq)]
enum Kind {
    Geometry,
    Geography,
}

impl Kind {
    /// The kind of a number: refusal 20 where it has no boxes.
    fn of(number: u32) -> Result<Self, Refusal> {
        match u8::try_from(number) {
            Ok(logical::GEOMETRY) => Ok(Kind::Geometry),
            Ok(logical::GEOGRAPHY) => Ok(Kind::Geography),
            _ => Err(Refusal::whole(refusal::COLUMN_TYPE)),
        }
    }

    /// Whether coordinates of an axis are in its range.
    fn has(self, axis: Axis, coordinates: impl IntoIterator<Item = Key>) -> bool {
        let end = axis.end();
        self == Kind::Geometry || coordinates.into_iter().all(|key| (-end..=end).contains(&key.0))
    }
}

/// The two axes.
#[derive(Clone, Copy)]
enum Axis {
    X,
    Y,
}

impl Axis {
    /// The key of the greatest coordinate of a GEOGRAPHY; that of the least is its negation.
    fn end(self) -> i64 {
        let end: f64 = match self {
            Axis::X => 180.0,
            Axis::Y => 90.0,
        };
        end.to_bits() as i64
    }

    /// Its coordinates among those of points that are no NaN, with their keys.
    fn counted(self, points: &[f64]) -> Vec<(Key, f64)> {
        let all = points.iter().skip(self as usize).step_by(2);
        all.filter_map(|&number| Some((Key::of(number)?, number))).collect()
    }
}

/// The place of a number in document 01's order of DOUBLE: its bits below the sign as a whole number, negated where the
/// sign is set. Equal numbers have one key, both zeros too.
#[derive(Clone, Copy, PartialEq, Eq, PartialOrd, Ord)]
struct Key(i64);

impl Key {
    /// The key of a number; a NaN has none.
    fn of(number: f64) -> Option<Self> {
        const SIGN: u64 = 1 << 63;
        const INFINITY: i64 = 0x7FF << 52;
        let bits = number.to_bits();
        let magnitude = (bits & !SIGN) as i64;
        let key = if bits & SIGN == 0 { magnitude } else { -magnitude };
        (magnitude <= INFINITY).then_some(Key(key))
    }
}

/// Writes the box of points, x and y in turn, to the first of the lent numbers: refusal 20, then 15, then 16, then 14.
/// Answers 4, how many are written, or 0 where there is no box.
pub fn box_of(kind: u32, points: &[f64], out: &mut [f64]) -> Result<u32, Refusal> {
    let Some(bounds) = bounds_of(kind, points)? else { return Ok(0) };
    *out.first_chunk_mut().ok_or(Refusal::whole(refusal::OUTPUT))? = bounds;
    Ok(WIDTH as u32)
}

/// The bounds of points, none where an axis has no coordinate that counts: refusal 20, then 15, then 16.
pub fn bounds_of(kind: u32, points: &[f64]) -> Result<Option<[f64; WIDTH]>, Refusal> {
    let kind = Kind::of(kind)?;
    if !points.len().is_multiple_of(2) {
        return Err(Refusal::whole(refusal::VALUE_LENGTH));
    }
    let (xs, ys) = (Axis::X.counted(points), Axis::Y.counted(points));
    if !kind.has(Axis::X, keys(&xs)) || !kind.has(Axis::Y, keys(&ys)) {
        return Err(broken());
    }
    let (Some([xmin, xmax]), Some([ymin, ymax])) = (ends(xs), ends(ys)) else { return Ok(None) };
    Ok(Some([xmin, xmax, ymin, ymax]))
}

/// The keys of coordinates.
fn keys(counted: &[(Key, f64)]) -> impl Iterator<Item = Key> + '_ {
    counted.iter().map(|&(key, _)| key)
}

/// The first and the last of coordinates once they are in order; none where there are none.
fn ends(mut counted: Vec<(Key, f64)>) -> Option<[f64; 2]> {
    counted.sort_unstable_by_key(|&(key, _)| key);
    Some([counted.first()?.1, counted.last()?.1])
}

/// Whether a point is inside a box: refusal 20, then 16 of the box, then 16 of the point. A NaN is inside nothing.
pub fn inside(kind: u32, bounds: [f64; WIDTH], x: f64, y: f64) -> Result<bool, Refusal> {
    let kind = Kind::of(kind)?;
    let [Some(xmin), Some(xmax), Some(ymin), Some(ymax)] = bounds.map(Key::of) else { return Err(broken()) };
    if ymin > ymax || !kind.has(Axis::X, [xmin, xmax]) || !kind.has(Axis::Y, [ymin, ymax]) {
        return Err(broken());
    }
    let (x, y) = (Key::of(x), Key::of(y));
    if !kind.has(Axis::X, x) || !kind.has(Axis::Y, y) {
        return Err(broken());
    }
    let (Some(x), Some(y)) = (x, y) else { return Ok(false) };
    let in_x = if xmin > xmax { xmin <= x || x <= xmax } else { xmin <= x && x <= xmax };
    Ok(in_x && ymin <= y && y <= ymax)
}

/// The refusal of a box that is none, and of a coordinate out of its range.
fn broken() -> Refusal {
    Refusal::whole(refusal::VALUE)
}
