//! Bounding boxes of points, and points inside them. They take a kind, [`GEOMETRY`](crate::codes::kind::GEOMETRY) or
//! [`GEOGRAPHY`](crate::codes::kind::GEOGRAPHY), and no edition.

use crate::refusal::result;
use crate::{boundary, Refusal};

/// The numbers of a box.
pub const BOX_WIDTH: usize = 4;

/// A bounding box. One that was received may have xmin above xmax: it then goes around, and x is inside where it is at
/// least xmin or at most xmax.
#[derive(Clone, Copy, Debug, PartialEq)]
pub struct BoundingBox {
    /// The least x.
    pub xmin: f64,
    /// The greatest x.
    pub xmax: f64,
    /// The least y.
    pub ymin: f64,
    /// The greatest y.
    pub ymax: f64,
}

impl From<[f64; BOX_WIDTH]> for BoundingBox {
    fn from([xmin, xmax, ymin, ymax]: [f64; BOX_WIDTH]) -> Self {
        BoundingBox { xmin, xmax, ymin, ymax }
    }
}

impl From<BoundingBox> for [f64; BOX_WIDTH] {
    fn from(BoundingBox { xmin, xmax, ymin, ymax }: BoundingBox) -> Self {
        [xmin, xmax, ymin, ymax]
    }
}

/// The box of points, whose coordinates are x and y in turn; none where an axis has no coordinate that is no NaN.
/// Refusal 20 for another kind, then 15 for an odd number of coordinates, then 16 where one of GEOGRAPHY, no NaN, is
/// outside [-180, 180] in x or [-90, 90] in y. A zero may come back with either sign.
///
/// ```
/// use griffeljol::codes::kind;
/// use griffeljol::{box_of, BoundingBox};
///
/// // The second point has no x: its y still counts.
/// let found = box_of(kind::GEOGRAPHY, &[174.76, -36.85, f64::NAN, -18.14])?;
/// assert_eq!(found, Some(BoundingBox { xmin: 174.76, xmax: 174.76, ymin: -36.85, ymax: -18.14 }));
/// assert_eq!(box_of(kind::GEOGRAPHY, &[f64::NAN, -18.14])?, None);
/// assert_eq!(box_of(kind::GEOGRAPHY, &[180.5, 0.0]).unwrap_err().number, 16);
/// # Ok::<(), griffeljol::Refusal>(())
/// ```
pub fn box_of(kind: u32, points: &[f64]) -> Result<Option<BoundingBox>, Refusal> {
    let mut bounds = [0.0; BOX_WIDTH];
    Ok(match result(boundary::box_of(kind, points, &mut bounds))? {
        0 => None,
        _ => Some(bounds.into()),
    })
}

/// Whether a point is inside a box, its bounds included; a NaN is inside nothing. Refusal 20 for another kind, then 16
/// for a box with a NaN, with ymin above ymax or, for GEOGRAPHY, with a bound out of its range, and for a point of
/// GEOGRAPHY with a coordinate out of its range that is no NaN.
///
/// ```
/// use griffeljol::codes::kind;
/// use griffeljol::{inside, BoundingBox};
///
/// let fiji = BoundingBox { xmin: 177.0, xmax: -178.0, ymin: -21.0, ymax: -12.0 };
/// assert_eq!(inside(kind::GEOGRAPHY, fiji, 178.44, -18.14), Ok(true));
/// assert_eq!(inside(kind::GEOGRAPHY, fiji, 174.76, -18.14), Ok(false));
/// let turned = BoundingBox { ymin: -12.0, ymax: -21.0, ..fiji };
/// assert_eq!(inside(kind::GEOGRAPHY, turned, 178.44, -18.14).unwrap_err().number, 16);
/// ```
pub fn inside(kind: u32, bounds: BoundingBox, x: f64, y: f64) -> Result<bool, Refusal> {
    result(boundary::inside(kind, bounds.into(), x, y)).map(|answer| answer != 0)
}
