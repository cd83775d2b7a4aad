//! Resolves a sheet into rows, and writes it anew with both annotations: `cargo run --example sheet -- FILE`.

use std::error::Error;
use std::{env, fs};

use griffeljol::Edition;

fn main() -> Result<(), Box<dyn Error>> {
    let sheet = fs::read(env::args_os().nth(1).ok_or("give the file of a sheet")?)?;

    for (node, row) in griffeljol::rows(Edition::FIRST, &sheet)?.iter().enumerate() {
        println!("node {node}: {:?}", row.numbers());
    }

    let mut rewritten = vec![0; sheet.len()];
    let length = griffeljol::rewrite(Edition::FIRST, &sheet, &mut rewritten, 0)?;
    println!("rewritten: {length} bytes");
    Ok(())
}
