//! `griffeljol compare`: what differs between two sheets.

use griffeljol::{Sides, MAX_SHEET};

use crate::answer::Answer;
use crate::arguments::{Arguments, JSON, REPORT};
use crate::compared::{Compared, LETTERS};
use crate::failure::{AtFault, Failure, Refused};
use crate::files::{self, STANDARD};
use crate::{differences, report};

pub fn run(mut arguments: Arguments) -> Result<Answer, Failure> {
    let files = Sides { first: arguments.word(LETTERS.first)?, second: arguments.word(LETTERS.second)? };
    let edition = arguments.edition()?;
    let (wants_json, wants_report) = (arguments.has(JSON), arguments.has(REPORT));
    arguments.end()?;
    if wants_json && wants_report {
        return Err(Failure::arguments(format!("{JSON} and {REPORT} cannot be given together")));
    }
    if files.first == STANDARD && files.second == STANDARD {
        return Err(Failure::arguments("A and B cannot both be standard input"));
    }
    let first = files::read(&files.first, MAX_SHEET)?;
    let second = files::read(&files.second, MAX_SHEET)?;
    let found = griffeljol::differences(edition, &first, &second).map_err(|refused| {
        let at_fault = match refused.sheet {
            1 => Some(AtFault { sheet: LETTERS.first, file: files.first.clone() }),
            2 => Some(AtFault { sheet: LETTERS.second, file: files.second.clone() }),
            _ => None,
        };
        Failure::Refused(Refused { at_fault, ..refused.refusal.into() })
    })?;
    let sheets = Sides {
        first: Compared::new(edition, files.first, first)?,
        second: Compared::new(edition, files.second, second)?,
    };
    let told = differences::told(&found, &sheets);
    let text = if wants_json {
        differences::object(told).line()
    } else if wants_report {
        report::page(edition, &sheets, &told)
    } else {
        differences::lines(&told).concat()
    };
    Ok(Answer::yes_or_no(text, found.is_empty()))
}
