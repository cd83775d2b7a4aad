//! Compares two sheets, or one with what rewriting makes of it: `cargo run --example compare -- FILE [FILE]`.

use std::error::Error;
use std::{env, fs};

use griffeljol::{differences, rewrite, Difference, Edition};

fn main() -> Result<(), Box<dyn Error>> {
    let mut files = env::args_os().skip(1);
    let first = fs::read(files.next().ok_or("give the file of a sheet")?)?;
    let second = match files.next() {
        Some(file) => fs::read(file)?,
        None => {
            let mut rewritten = vec![0; first.len()];
            rewrite(Edition::FIRST, &first, &mut rewritten, 0)?;
            rewritten
        }
    };

    let differences = differences(Edition::FIRST, &first, &second)?;
    for difference in &differences {
        match difference {
            Difference::Field { node, field } => println!("node {node}: {field:?}"),
            Difference::Place { node, places } => {
                println!("node {node}: place {}, was {}", places.second, places.first)
            }
            Difference::OnlyFirst { node, slot } => println!("node {node} of the first: {slot:?}"),
            Difference::OnlySecond { node, slot } => println!("node {node} of the second: {slot:?}"),
        }
    }
    println!("differences: {}", differences.len());

    if let Err(refused) = griffeljol::differences(Edition::FIRST, &first, &[]) {
        println!("beside an empty sheet: {refused}");
    }
    Ok(())
}
