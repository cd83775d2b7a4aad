//! Reads single values of columns and orders them: `cargo run --example value`.

use std::error::Error;

use griffeljol::codes::{kind, physical};
use griffeljol::{order, read, ColumnType, Edition, Order, Value};

fn main() -> Result<(), Box<dyn Error>> {
    // INT(8, false) on INT32, little-endian: 255 is valid, 256 is not.
    let uint8 = ColumnType { physical: physical::INT32, type_length: 0, kind: kind::INTEGER, p1: 8, p2: 0 };
    assert_eq!(read(Edition::FIRST, uint8, &[0xFF, 0, 0, 0])?, Value::Unsigned(255));
    match read(Edition::FIRST, uint8, &[0, 1, 0, 0]) {
        Err(refusal) => println!("256: {refusal}, {}", refusal.meaning()),
        Ok(value) => println!("256: {value:?}"),
    }

    // DECIMAL(3, 2) on BYTE_ARRAY, big-endian two's complement: -1.28 is below 1.27.
    let decimal = ColumnType { physical: physical::BYTE_ARRAY, type_length: 0, kind: kind::DECIMAL, p1: 3, p2: 2 };
    assert_eq!(order(Edition::FIRST, decimal, &[0x80], &[0x7F])?, Order::Less);
    println!("80 and 7F as decimals: {:?}", order(Edition::FIRST, decimal, &[0x80], &[0x7F])?);

    // DECIMAL(3, 3), which the first edition does not have: -0.128 is below 0.127.
    let fraction = ColumnType { p2: 3, ..decimal };
    assert_eq!(order(Edition::SECOND, fraction, &[0x80], &[0x7F])?, Order::Less);
    if let Err(refused) = order(Edition::FIRST, fraction, &[0x80], &[0x7F]) {
        println!("the same as fractions in the first edition: {refused}");
    }

    // STRING: where the UTF-8 of the second value goes bad.
    let string = ColumnType { physical: physical::BYTE_ARRAY, type_length: 0, kind: kind::STRING, p1: 0, p2: 0 };
    if let Err(refused) = order(Edition::FIRST, string, b"issuer", b"iss\xFFuer") {
        println!("a bad second text: {refused}");
    }
    Ok(())
}
