//! `griffeljol box`: the bounding box of points; and `griffeljol inside`: whether a point is inside one.

use griffeljol::codes::kind;
use griffeljol::{BoundingBox, Refusal};

use crate::answer::Answer;
use crate::arguments::{Arguments, BINARY, JSON};
use crate::failure::{Failure, Refused};
use crate::json::Json;
use crate::points;

/// Runs `box`.
pub fn run(mut arguments: Arguments) -> Result<Answer, Failure> {
    let kind = kind_of(&arguments.text("KIND")?)?;
    let file = arguments.word("FILE")?;
    let (is_binary, wants_json) = (arguments.has(BINARY), arguments.has(JSON));
    arguments.end()?;
    let coordinates = if is_binary { points::of_doubles(&file)? } else { points::of_lines(&file)? };
    let found = griffeljol::box_of(kind, &coordinates).map_err(|refusal| refused(refusal, Refusal::box_meaning))?;
    let text = if wants_json {
        Json::Object(vec![("box", found.as_ref().map_or(Json::Null, object))]).line()
    } else {
        found.as_ref().map_or("no box\n".to_owned(), line)
    };
    Ok(text.into())
}

/// Runs `inside`.
pub fn run_inside(mut arguments: Arguments) -> Result<Answer, Failure> {
    let kind = kind_of(&arguments.text("KIND")?)?;
    let bounds: BoundingBox = points::of_word::<4>("BOX", &arguments.text("BOX")?)?.into();
    let [x, y] = points::of_word("POINT", &arguments.text("POINT")?)?;
    let wants_json = arguments.has(JSON);
    arguments.end()?;
    let is_inside =
        griffeljol::inside(kind, bounds, x, y).map_err(|refusal| refused(refusal, Refusal::inside_meaning))?;
    let text = match (wants_json, is_inside) {
        (true, _) => Json::Object(vec![("inside", Json::Truth(is_inside))]).line(),
        (false, true) => "inside\n".to_owned(),
        (false, false) => "outside\n".to_owned(),
    };
    Ok(Answer::yes_or_no(text, is_inside))
}

/// A kind by its name or its number. Which kinds have boxes is the library's to say.
fn kind_of(text: &str) -> Result<u32, Failure> {
    match text {
        "GEOMETRY" => Ok(kind::GEOMETRY),
        "GEOGRAPHY" => Ok(kind::GEOGRAPHY),
        _ => text
            .parse()
            .map_err(|_| Failure::arguments(format!("KIND cannot be {text:?}: it is GEOMETRY, GEOGRAPHY or a number"))),
    }
}

/// A refusal in the words of points or of a box. Its place is always 0.
fn refused(refusal: Refusal, meaning: fn(&Refusal) -> &'static str) -> Refused {
    Refused { meaning: meaning(&refusal), place: None, ..refusal.into() }
}

/// A box on a line. A bound stands as the shortest decimal that reads back as it.
fn line(BoundingBox { xmin, xmax, ymin, ymax }: &BoundingBox) -> String {
    format!("xmin {xmin:?} xmax {xmax:?} ymin {ymin:?} ymax {ymax:?}\n")
}

fn object(BoundingBox { xmin, xmax, ymin, ymax }: &BoundingBox) -> Json {
    Json::Object(vec![
        ("xmin", Json::double(*xmin)),
        ("xmax", Json::double(*xmax)),
        ("ymin", Json::double(*ymin)),
        ("ymax", Json::double(*ymax)),
    ])
}
