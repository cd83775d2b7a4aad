//! `griffeljol rewrite`: a sheet anew, with both annotations at every node.

use griffeljol::MAX_SHEET;

use crate::answer::Answer;
use crate::arguments::{Arguments, OUTPUT};
use crate::failure::Failure;
use crate::files::{self, STANDARD};

/// Writes the output only once the library has accepted the sheet. Prints the sheet where the output is `-`, else nothing.
pub fn run(mut arguments: Arguments) -> Result<Answer, Failure> {
    let file = arguments.word("FILE")?;
    let output = arguments.option(OUTPUT).ok_or_else(|| Failure::arguments("-o OUT is missing"))?.to_owned();
    let edition = arguments.edition()?;
    arguments.end()?;
    let sheet = files::read(&file, MAX_SHEET)?;
    let mut rewritten = vec![0; sheet.len()];
    griffeljol::rewrite(edition, &sheet, &mut rewritten, 0)?;
    if output == STANDARD {
        return Ok(rewritten.into());
    }
    files::write(&output, &rewritten)?;
    Ok(Vec::new().into())
}
