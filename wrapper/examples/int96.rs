//! Turns INT96 times into timestamps' counts, and back: `cargo run --example int96`.

use griffeljol::codes::unit;
use griffeljol::{decode, from_int96, to_int96, Fields, Refusal};

fn main() -> Result<(), Refusal> {
    // Noon of 1 January 2000: 43,200,000,000,000 nanoseconds in Julian day 2,451,545, both little-endian.
    let noon = [0x00, 0x80, 0xA7, 0x48, 0x4A, 0x27, 0x00, 0x00, 0x59, 0x68, 0x25, 0x00];
    let count = from_int96(&noon)?;
    let Fields { year, month, day, hour, .. } = decode(unit::NANOS, count)?;
    println!("{count} ns, {year:04}-{month:02}-{day:02} {hour:02} h");
    assert_eq!(to_int96(count), noon);

    // Julian day 0 is too far away, and a full day of nanoseconds is none of a day's.
    for value in [[0; 12], [0xFF; 12]] {
        if let Err(refusal) = from_int96(&value) {
            println!("{refusal}, {}", refusal.int96_meaning());
        }
    }
    Ok(())
}
