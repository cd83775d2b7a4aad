//! The linked library, through the C interface of `include/griffeljol.h` as the wrapper declares it.

use crate::side::Side;

#[allow(unsafe_code)]
#[path = "../../../wrapper/src/boundary.rs"]
mod boundary;

/// The proved library.
pub struct Linked;

impl Side for Linked {
    fn resolve(&self, edition: u32, sheet: &[u8], rows: &mut [u32]) -> u64 {
        boundary::resolve(edition, sheet, rows)
    }

    fn rewrite(&self, edition: u32, sheet: &[u8], out: &mut [u8], start: usize) -> u64 {
        boundary::rewrite(edition, sheet, out, start)
    }

    fn compare(&self, edition: u32, first: &[u8], second: &[u8], out: &mut [u8]) -> u64 {
        boundary::compare(edition, first, second, out)
    }

    fn read(&self, edition: u32, column: [u32; 5], value: &[u8], out: &mut [u64]) -> u64 {
        boundary::read(edition, column, value, out)
    }

    fn order(&self, edition: u32, column: [u32; 5], a: &[u8], b: &[u8]) -> u64 {
        boundary::order(edition, column, a, b)
    }

    fn decode(&self, unit: u32, count: i64, fields: &mut [i64]) -> u64 {
        boundary::decode(unit, count, fields)
    }

    fn encode(&self, unit: u32, fields: &[i64], count: &mut [i64]) -> u64 {
        boundary::encode(unit, fields, count)
    }

    fn from_int96(&self, value: &[u8], count: &mut [i64]) -> u64 {
        boundary::from_int96(value, count)
    }

    fn to_int96(&self, count: i64, value: &mut [u8]) -> u64 {
        boundary::to_int96(count, value)
    }

    fn box_of(&self, kind: u32, points: &[f64], bounds: &mut [f64]) -> u64 {
        boundary::box_of(kind, points, bounds)
    }

    fn inside(&self, kind: u32, bounds: [f64; 4], x: f64, y: f64) -> u64 {
        boundary::inside(kind, bounds, x, y)
    }
}
