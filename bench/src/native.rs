//! The peers in C and C++, which `build.rs` compiles from `peers/`.

use std::ffi::c_int;

extern "C" {
    fn first_bad_check_cc(sheet: *const u8, blocks: usize) -> usize;
    #[cfg(clang)]
    fn first_bad_check_clang(sheet: *const u8, blocks: usize) -> usize;

    fn c_plain_box(is_geography: c_int, points: *const f64, length: usize, bounds: *mut f64) -> c_int;
    fn c_plain_inside(is_geography: c_int, xmin: f64, xmax: f64, ymin: f64, ymax: f64, x: f64, y: f64) -> c_int;

    fn hinnant_decode_millis(count: i64, fields: *mut i64);
    fn hinnant_decode_micros(count: i64, fields: *mut i64);
    fn hinnant_decode_nanos(count: i64, fields: *mut i64);
    fn hinnant_encode_millis(fields: *const i64) -> i64;
    fn hinnant_encode_micros(fields: *const i64) -> i64;
    fn hinnant_encode_nanos(fields: *const i64) -> i64;
    fn hinnant_encode_checked_millis(fields: *const i64, count: *mut i64) -> bool;
    fn hinnant_encode_checked_micros(fields: *const i64, count: *mut i64) -> bool;
    fn hinnant_encode_checked_nanos(fields: *const i64, count: *mut i64) -> bool;
}

/// Bytes of a block.
const BLOCK: usize = 512;

// SAFETY of each call: the C loops read whole blocks, or an even number of coordinates, of a slice that lives through
// it, and write four numbers of an array at most; the C++ functions read or write the seven numbers of an array and one
// more.

/// The first block whose stored check is not its check, or the number of blocks.
pub fn first_bad_check_by_cc(sheet: &[u8]) -> usize {
    unsafe { first_bad_check_cc(sheet.as_ptr(), sheet.len() / BLOCK) }
}

/// The same by clang.
#[cfg(clang)]
pub fn first_bad_check_by_clang(sheet: &[u8]) -> usize {
    unsafe { first_bad_check_clang(sheet.as_ptr(), sheet.len() / BLOCK) }
}

/// 1 where the box of points is written, 0 where there is none, -1 where a coordinate of GEOGRAPHY is out of its range.
pub fn plain_box(is_geography: bool, points: &[f64], bounds: &mut [f64; 4]) -> i32 {
    assert!(points.len().is_multiple_of(2));
    unsafe { c_plain_box(is_geography.into(), points.as_ptr(), points.len(), bounds.as_mut_ptr()) }
}

/// 1 inside, 0 outside, -1 for a box that is none and for numbers of GEOGRAPHY out of their range.
pub fn plain_inside(is_geography: bool, [xmin, xmax, ymin, ymax]: [f64; 4], x: f64, y: f64) -> i32 {
    unsafe { c_plain_inside(is_geography.into(), xmin, xmax, ymin, ymax, x, y) }
}

/// The fields of a count in a unit, 1 to 3, which is known when this is compiled.
pub fn decode<const UNIT: u32>(count: i64, fields: &mut [i64; 7]) {
    let fields = fields.as_mut_ptr();
    unsafe {
        match UNIT {
            1 => hinnant_decode_millis(count, fields),
            2 => hinnant_decode_micros(count, fields),
            _ => hinnant_decode_nanos(count, fields),
        }
    }
}

/// The count of fields that are not looked at.
pub fn encode<const UNIT: u32>(fields: &[i64; 7]) -> i64 {
    let fields = fields.as_ptr();
    unsafe {
        match UNIT {
            1 => hinnant_encode_millis(fields),
            2 => hinnant_encode_micros(fields),
            _ => hinnant_encode_nanos(fields),
        }
    }
}

/// Writes the count of fields that form a date and time; answers whether they do.
pub fn encode_checked<const UNIT: u32>(fields: &[i64; 7], count: &mut i64) -> bool {
    let fields = fields.as_ptr();
    unsafe {
        match UNIT {
            1 => hinnant_encode_checked_millis(fields, count),
            2 => hinnant_encode_checked_micros(fields, count),
            _ => hinnant_encode_checked_nanos(fields, count),
        }
    }
}
