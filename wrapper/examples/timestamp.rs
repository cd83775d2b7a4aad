//! Turns a timestamp's count into its date and time, and back: `cargo run --example timestamp`.

use griffeljol::codes::unit;
use griffeljol::{decode, encode, Fields, Refusal};

fn main() -> Result<(), Refusal> {
    let Fields { year, month, day, hour, minute, second, fraction } = decode(unit::MILLIS, -1)?;
    println!("{year:04}-{month:02}-{day:02} {hour:02}:{minute:02}:{second:02}.{fraction:03}");

    let third = Fields { year: 1970, month: 1, day: 3, hour: 0, minute: 0, second: 0, fraction: 0 };
    println!("{} ms", encode(unit::MILLIS, &third)?);
    Ok(())
}
