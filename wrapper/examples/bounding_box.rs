//! Finds the box of points, and tests whether others are inside: `cargo run --example bounding_box`.

use griffeljol::codes::kind;
use griffeljol::{box_of, inside, BoundingBox, Refusal};

fn main() -> Result<(), Refusal> {
    // Three terminals, x before y; the last one's longitude is not known.
    let terminals = [174.76, -36.85, 178.44, -18.14, f64::NAN, -13.83];
    let Some(bounds) = box_of(kind::GEOGRAPHY, &terminals)? else { return Ok(()) };
    println!("x {} to {}, y {} to {}", bounds.xmin, bounds.xmax, bounds.ymin, bounds.ymax);

    // A received box may go around: its xmin is above its xmax.
    let around = BoundingBox { xmin: 177.0, xmax: -178.0, ymin: -21.0, ymax: -12.0 };
    for (x, y) in [(178.44, -18.14), (-179.0, -16.8), (174.76, -36.85)] {
        println!("{x} {y}: {}", if inside(kind::GEOGRAPHY, around, x, y)? { "inside" } else { "outside" });
    }

    // A longitude and a latitude exchanged.
    if let Err(refusal) = box_of(kind::GEOGRAPHY, &[-36.85, 174.76]) {
        println!("{refusal}, {}", refusal.box_meaning());
    }
    Ok(())
}
