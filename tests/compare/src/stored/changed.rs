//! Copies of the stored files with one byte changed, each of which must be found.

use std::path::Path;

use super::{Files, Stored, ALL};
use crate::Side;

/// How many lines of the answers are changed, besides the first.
const LINES: usize = 8;

/// The bytes of a count.
const COUNT: usize = 4;

/// Changes the stored files, a byte at a time, and holds a side to each; answers how many there were, or the first that was not found.
pub fn find_changes(side: &dyn Side, folder: &Path) -> Result<usize, String> {
    let mut count = 0;
    for stored in &ALL {
        let files = stored.files(folder)?;
        stored.hold(side, &files)?;
        let questions = question_places(stored, &files).into_iter().map(|at| (at, files.with_question_changed(at)));
        let answers = answer_places(&files).into_iter().map(|at| (at, files.with_answer_changed(at)));
        for (at, changed) in questions.chain(answers) {
            if stored.hold(side, &changed).is_ok() {
                return Err(format!("{}: byte {at} was changed, and nothing differs", stored.name));
            }
            count += 1;
        }
    }
    Ok(count)
}

/// Where questions are changed: in the first title, in the first edition where one stands behind the count, and in what the lent bytes hold
/// after the last rewriting.
fn question_places(stored: &Stored, files: &Files) -> Vec<usize> {
    let Some(questions) = &files.questions else {
        return Vec::new();
    };
    let title = files.answers.split(|&byte| byte == b':').next().expect("an answer behind its title");
    let first = questions.windows(title.len()).position(|window| window == title).expect("the first title");
    let last = questions.len() - 1;
    match stored.name {
        "schema" => vec![first, last],
        "schema_editions" => vec![COUNT, first, last],
        "column_editions" | "comparison" => vec![COUNT, first],
        _ => vec![first],
    }
}

/// Where answers are changed: the first byte, and the last of some lines.
fn answer_places(files: &Files) -> Vec<usize> {
    let ends: Vec<usize> = (0..files.answers.len()).filter(|&at| files.answers[at] == b'\n').collect();
    [0].into_iter().chain(ends.iter().step_by((ends.len() / LINES).max(1)).map(|end| end - 1)).collect()
}

impl Files {
    fn with_question_changed(&self, at: usize) -> Files {
        let mut changed = self.clone();
        changed.questions.as_mut().expect("a file of questions")[at] ^= 1;
        changed
    }

    fn with_answer_changed(&self, at: usize) -> Files {
        let mut changed = self.clone();
        changed.answers[at] ^= 1;
        changed
    }
}
