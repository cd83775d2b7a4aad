//! The boundary: the functions of `include/griffeljol.h` declared again, and each called with slices.
//!
//! No prover sees these declarations. Each slice goes over as its pointer and its length, so what the header asks of memory
//! holds by Rust's own rules on references: the elements are there for the whole call, and what is written overlaps nothing.
//! An answer comes back as the header has it.
//!
//! `tests/compare` and `bench` compile this file too: what they compare and measure is called from here.

extern "C" {
    fn griffeljol_resolve(edition: u32, sheet: *const u8, sheet_len: usize, rows: *mut u32, rows_len: usize) -> u64;

    fn griffeljol_rewrite(
        edition: u32,
        sheet: *const u8,
        sheet_len: usize,
        out: *mut u8,
        out_len: usize,
        start: usize,
    ) -> u64;

    fn griffeljol_compare(
        edition: u32,
        first: *const u8,
        first_len: usize,
        second: *const u8,
        second_len: usize,
        out: *mut u8,
        out_len: usize,
    ) -> u64;

    fn griffeljol_read(
        edition: u32,
        physical: u32,
        type_length: u32,
        kind: u32,
        p1: u32,
        p2: u32,
        value: *const u8,
        value_len: usize,
        out: *mut u64,
        out_len: usize,
    ) -> u64;

    fn griffeljol_order(
        edition: u32,
        physical: u32,
        type_length: u32,
        kind: u32,
        p1: u32,
        p2: u32,
        a: *const u8,
        a_len: usize,
        b: *const u8,
        b_len: usize,
    ) -> u64;

    fn griffeljol_decode(unit: u32, count: i64, fields: *mut i64, fields_len: usize) -> u64;

    fn griffeljol_encode(unit: u32, fields: *const i64, fields_len: usize, count: *mut i64, count_len: usize) -> u64;

    fn griffeljol_from_int96(value: *const u8, value_len: usize, count: *mut i64, count_len: usize) -> u64;

    fn griffeljol_to_int96(count: i64, value: *mut u8, value_len: usize) -> u64;

    fn griffeljol_box(
        kind: u32,
        coordinates: *const f64,
        coordinates_len: usize,
        bounds: *mut f64,
        bounds_len: usize,
    ) -> u64;

    fn griffeljol_inside(kind: u32, xmin: f64, xmax: f64, ymin: f64, ymax: f64, x: f64, y: f64) -> u64;
}

// SAFETY of each call: the pointers and lengths are those of slices that live through it, those written to are borrowed alone, and
// the header asks no more.

pub fn resolve(edition: u32, sheet: &[u8], rows: &mut [u32]) -> u64 {
    unsafe { griffeljol_resolve(edition, sheet.as_ptr(), sheet.len(), rows.as_mut_ptr(), rows.len()) }
}

pub fn rewrite(edition: u32, sheet: &[u8], out: &mut [u8], start: usize) -> u64 {
    unsafe { griffeljol_rewrite(edition, sheet.as_ptr(), sheet.len(), out.as_mut_ptr(), out.len(), start) }
}

pub fn compare(edition: u32, first: &[u8], second: &[u8], out: &mut [u8]) -> u64 {
    let (first, first_len) = (first.as_ptr(), first.len());
    let (second, second_len) = (second.as_ptr(), second.len());
    unsafe { griffeljol_compare(edition, first, first_len, second, second_len, out.as_mut_ptr(), out.len()) }
}

/// The column is its physical type, type length, kind, p1 and p2.
pub fn read(edition: u32, [physical, length, kind, p1, p2]: [u32; 5], value: &[u8], out: &mut [u64]) -> u64 {
    let (value, value_len) = (value.as_ptr(), value.len());
    unsafe { griffeljol_read(edition, physical, length, kind, p1, p2, value, value_len, out.as_mut_ptr(), out.len()) }
}

/// The column is its physical type, type length, kind, p1 and p2.
pub fn order(edition: u32, [physical, length, kind, p1, p2]: [u32; 5], a: &[u8], b: &[u8]) -> u64 {
    unsafe { griffeljol_order(edition, physical, length, kind, p1, p2, a.as_ptr(), a.len(), b.as_ptr(), b.len()) }
}

pub fn decode(unit: u32, count: i64, fields: &mut [i64]) -> u64 {
    unsafe { griffeljol_decode(unit, count, fields.as_mut_ptr(), fields.len()) }
}

pub fn encode(unit: u32, fields: &[i64], count: &mut [i64]) -> u64 {
    unsafe { griffeljol_encode(unit, fields.as_ptr(), fields.len(), count.as_mut_ptr(), count.len()) }
}

pub fn from_int96(value: &[u8], count: &mut [i64]) -> u64 {
    unsafe { griffeljol_from_int96(value.as_ptr(), value.len(), count.as_mut_ptr(), count.len()) }
}

pub fn to_int96(count: i64, value: &mut [u8]) -> u64 {
    unsafe { griffeljol_to_int96(count, value.as_mut_ptr(), value.len()) }
}

pub fn box_of(kind: u32, coordinates: &[f64], bounds: &mut [f64]) -> u64 {
    unsafe { griffeljol_box(kind, coordinates.as_ptr(), coordinates.len(), bounds.as_mut_ptr(), bounds.len()) }
}

/// The bounds are xmin, xmax, ymin and ymax.
pub fn inside(kind: u32, [xmin, xmax, ymin, ymax]: [f64; 4], x: f64, y: f64) -> u64 {
    unsafe { griffeljol_inside(kind, xmin, xmax, ymin, ymax, x, y) }
}
