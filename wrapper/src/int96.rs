//! INT96 times: 8 bytes of nanoseconds in the day, then 4 bytes of Julian day, both unsigned little-endian; Julian day 2,440,588 is
//! 1 January 1970. They are turned into a timestamp's count and back in no edition: it is what one needs to leave INT96.

use crate::refusal::result;
use crate::{boundary, Refusal};

/// The bytes of an INT96.
pub const INT96_WIDTH: usize = 12;

/// The count in nanoseconds since 1970-01-01 00:00:00 of an INT96: refusal 15 for another length than [`INT96_WIDTH`], then 16 for a full
/// day of nanoseconds or more, then 19 where no count holds it.
///
/// ```
/// use griffeljol::codes::unit;
/// use griffeljol::{decode, from_int96};
///
/// // Noon of 1 January 2000, whose Julian day is 2,451,545.
/// let noon = [0x00, 0x80, 0xA7, 0x48, 0x4A, 0x27, 0x00, 0x00, 0x59, 0x68, 0x25, 0x00];
/// let fields = decode(unit::NANOS, from_int96(&noon)?)?;
/// assert_eq!((fields.year, fields.month, fields.day, fields.hour), (2000, 1, 1, 12));
/// assert_eq!(from_int96(&noon[..11]).unwrap_err().number, 15);
/// # Ok::<(), griffeljol::Refusal>(())
/// ```
pub fn from_int96(value: &[u8]) -> Result<i64, Refusal> {
    let mut count = [0];
    result(boundary::from_int96(value, &mut count))?;
    Ok(count[0])
}

/// The INT96 of a count in nanoseconds since 1970-01-01 00:00:00, which [`from_int96`] turns back into the count. Every count has one.
///
/// ```
/// use griffeljol::{from_int96, to_int96};
///
/// assert_eq!(to_int96(5), [5, 0, 0, 0, 0, 0, 0, 0, 0x8C, 0x3D, 0x25, 0x00]);
/// assert_eq!(from_int96(&to_int96(i64::MIN)), Ok(i64::MIN));
/// ```
pub fn to_int96(count: i64) -> [u8; INT96_WIDTH] {
    let mut value = [0; INT96_WIDTH];
    match result(boundary::to_int96(count, &mut value)) {
        Ok(_) => value,
        Err(_) => unreachable!("to_int96 promises twelve bytes of every count"),
    }
}
