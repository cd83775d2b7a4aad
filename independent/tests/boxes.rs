//! Boxes of points and points inside boxes: what counts, the order of refusals, the ends of ranges, and what stays in a
//! lent buffer.

use independent::boxes::bounds_of;
use independent::{box_of, inside, Refusal};

const GEOMETRY: u32 = 17;
const GEOGRAPHY: u32 = 18;
const BOTH: [u32; 2] = [GEOMETRY, GEOGRAPHY];
const NO_KINDS: [u32; 8] = [0, 14, 15, 16, 19, 273, 1 << 31 | 17, u32::MAX];
const NAN: f64 = f64::NAN;
const INFINITY: f64 = f64::INFINITY;

fn refused<T>(number: u32) -> Result<T, Refusal> {
    Err(Refusal { number, place: 0 })
}

#[test]
fn a_box_has_the_least_and_the_greatest_of_each_axis() {
    for kind in BOTH {
        assert_eq!(bounds_of(kind, &[3.0, -4.0, -1.0, 6.0, 5.0, 2.0]), Ok(Some([-1.0, 5.0, -4.0, 6.0])));
        assert_eq!(bounds_of(kind, &[7.5, -7.5]), Ok(Some([7.5, 7.5, -7.5, -7.5])));
        // Zeros are equal, whichever is written.
        assert_eq!(bounds_of(kind, &[0.0, -0.0, -0.0, 0.0]), Ok(Some([0.0; 4])));
        let small = f64::from_bits(1);
        assert_eq!(bounds_of(kind, &[small, 0.0, -small, -0.0]), Ok(Some([-small, small, 0.0, 0.0])));
    }
    let far = [INFINITY, f64::MAX, -INFINITY, f64::MIN];
    assert_eq!(bounds_of(GEOMETRY, &far), Ok(Some([-INFINITY, INFINITY, f64::MIN, f64::MAX])));
}

#[test]
fn nan_is_skipped_by_the_coordinate_and_no_box_is_an_answer() {
    for kind in BOTH {
        for nan in [NAN, -NAN, f64::from_bits(0x7FF0 << 48 | 1), f64::from_bits(u64::MAX)] {
            assert_eq!(bounds_of(kind, &[nan, 1.0, 2.0, nan]), Ok(Some([2.0, 2.0, 1.0, 1.0])));
            assert_eq!(bounds_of(kind, &[nan, 1.0, nan, 2.0]), Ok(None));
            assert_eq!(bounds_of(kind, &[1.0, nan]), Ok(None));
            assert_eq!(bounds_of(kind, &[nan, nan]), Ok(None));
        }
        assert_eq!(bounds_of(kind, &[]), Ok(None));
    }
}

#[test]
fn the_ends_of_the_ranges() {
    for (x, y, end) in [(1.0, 0.0, 180.0), (0.0, 1.0, 90.0_f64)] {
        for sign in [1.0, -1.0] {
            let point = |number: f64| [x * sign * number, y * sign * number];
            let [at, beyond] = [point(end), point(end.next_up())];
            for kind in BOTH {
                assert_eq!(bounds_of(kind, &at), Ok(Some([at[0], at[0], at[1], at[1]])));
            }
            assert!(bounds_of(GEOMETRY, &beyond).is_ok());
            assert_eq!(bounds_of(GEOGRAPHY, &beyond), refused(16));
            // Whether or not the other axis has any.
            let alone = if x == 0.0 { [NAN, beyond[1]] } else { [beyond[0], NAN] };
            assert_eq!(bounds_of(GEOGRAPHY, &alone), refused(16));
            assert_eq!(bounds_of(GEOMETRY, &alone), Ok(None));
            let all = [-180.0, 180.0, -90.0, 90.0];
            assert_eq!(inside(GEOGRAPHY, all, at[0], at[1]), Ok(true));
            assert_eq!(inside(GEOGRAPHY, all, beyond[0], beyond[1]), refused(16));
            assert_eq!(inside(GEOMETRY, all, beyond[0], beyond[1]), Ok(false));
        }
    }
    for (at, end) in [180.0, 180.0, 90.0, 90.0_f64].into_iter().enumerate() {
        for bound in [end, -end] {
            let mut bounds = [-80.0, 80.0, -80.0, 80.0];
            // A bound of y at the far end turns the box over.
            bounds[at] = bound;
            let is_turned = bounds[2] > bounds[3];
            assert_eq!(inside(GEOGRAPHY, bounds, 500.0, 0.0), refused(16));
            assert_eq!(inside(GEOGRAPHY, bounds, 0.0, 0.0).is_err(), is_turned);
            bounds[at] = if bound > 0.0 { bound.next_up() } else { bound.next_down() };
            assert_eq!(inside(GEOGRAPHY, bounds, 0.0, 0.0), refused(16));
            assert_eq!(inside(GEOMETRY, bounds, 0.0, 0.0).is_err(), is_turned);
        }
    }
}

#[test]
fn the_kind_comes_first_then_the_number_of_coordinates_then_the_range_then_the_output() {
    for kind in NO_KINDS {
        for points in [&[1.0][..], &[], &[200.0, 1.0], &[200.0], &[NAN, NAN]] {
            assert_eq!(box_of(kind, points, &mut []), refused(20));
        }
        assert_eq!(inside(kind, [NAN; 4], 200.0, 1.0), refused(20));
    }
    for kind in BOTH {
        for points in [&[1.0][..], &[200.0], &[NAN], &[200.0; 3], &[1.0; 101]] {
            assert_eq!(box_of(kind, points, &mut []), refused(15));
        }
        assert_eq!(box_of(kind, &[1.0, 2.0], &mut [0.0; 3]), refused(14));
    }
    assert_eq!(box_of(GEOGRAPHY, &[200.0, 2.0], &mut []), refused(16));
    assert_eq!(box_of(GEOGRAPHY, &[NAN, 91.0], &mut []), refused(16));
    assert_eq!(box_of(GEOGRAPHY, &[NAN, 1.0], &mut []), Ok(0));
}

#[test]
fn lent_buffers() {
    for kind in BOTH {
        for lent in 0..4 {
            let mut out = vec![7.0; lent];
            assert_eq!(box_of(kind, &[1.0, 2.0], &mut out), refused(14));
            assert_eq!(out, vec![7.0; lent]);
        }
        for beyond in [0, 1, 12] {
            let mut out = vec![7.0; 4 + beyond];
            assert_eq!(box_of(kind, &[], &mut out), Ok(0));
            assert_eq!(box_of(kind, &[1.0], &mut out), refused(15));
            assert_eq!(out, vec![7.0; 4 + beyond]);
            assert_eq!(box_of(kind, &[1.0, 3.0, 2.0, 4.0], &mut out), Ok(4));
            assert_eq!((&out[..4], &out[4..]), (&[1.0, 2.0, 3.0, 4.0][..], &vec![7.0; beyond][..]));
        }
    }
}

#[test]
fn a_point_is_inside_on_the_bounds_and_between_them() {
    for kind in BOTH {
        let bounds = [-10.0, 20.0, -30.0, 40.0];
        for (x, y, expected) in [
            (0.0, 0.0, true),
            (-10.0, -30.0, true),
            (20.0, 40.0, true),
            ((-10.0_f64).next_down(), 0.0, false),
            (20.0_f64.next_up(), 0.0, false),
            (0.0, (-30.0_f64).next_down(), false),
            (0.0, 40.0_f64.next_up(), false),
            (NAN, 0.0, false),
            (0.0, NAN, false),
            (NAN, NAN, false),
        ] {
            assert_eq!(inside(kind, bounds, x, y), Ok(expected), "{x} {y}");
        }
        for zero in [0.0, -0.0] {
            assert_eq!(inside(kind, [0.0, -0.0, -0.0, 0.0], zero, zero), Ok(true));
            assert_eq!(inside(kind, [-0.0, 0.0, 0.0, -0.0], zero, zero), Ok(true));
        }
    }
}

#[test]
fn wraparound_in_x_alone() {
    for kind in BOTH {
        let bounds = [170.0, -170.0, -10.0, 10.0];
        for (x, expected) in [
            (170.0, true),
            (175.0, true),
            (180.0, true),
            (-180.0, true),
            (-170.0, true),
            (170.0_f64.next_down(), false),
            ((-170.0_f64).next_up(), false),
            (0.0, false),
            (NAN, false),
        ] {
            assert_eq!(inside(kind, bounds, x, 10.0), Ok(expected), "{x}");
            assert_eq!(inside(kind, bounds, x, 11.0), Ok(false), "{x}");
        }
        assert_eq!(inside(kind, [170.0, -170.0, 10.0, -10.0], 175.0, 20.0), refused(16));
    }
    assert_eq!(inside(GEOMETRY, [1.0, -1.0, 0.0, 0.0], INFINITY, 0.0), Ok(true));
}

#[test]
fn a_box_that_is_none_comes_before_the_point() {
    for kind in BOTH {
        for at in 0..4 {
            let mut bounds = [0.0, 2.0, 0.0, 2.0];
            bounds[at] = NAN;
            for (x, y) in [(1.0, 1.0), (NAN, 1.0), (500.0, 1.0)] {
                assert_eq!(inside(kind, bounds, x, y), refused(16));
            }
        }
        assert_eq!(inside(kind, [0.0, 2.0, 2.0, 0.0], NAN, NAN), refused(16));
    }
    // Out of its range in one coordinate, and no number in the other.
    assert_eq!(inside(GEOGRAPHY, [0.0, 2.0, 0.0, 2.0], NAN, 91.0), refused(16));
    assert_eq!(inside(GEOGRAPHY, [0.0, 2.0, 0.0, 2.0], -181.0, NAN), refused(16));
    assert_eq!(inside(GEOMETRY, [0.0, 2.0, 0.0, 2.0], -181.0, NAN), Ok(false));
}
