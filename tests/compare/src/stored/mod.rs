//! Questions and answers stored in `tests/stored`: a side is asked the questions, and what it answers is held, byte for byte and in
//! the text in which they are stored, to the answers.

mod boxes;
mod changed;
mod column;
mod comparison;
mod int96;
mod questions;
mod schema;
mod timestamp;

pub use changed::find_changes;

use std::fmt::Write;
use std::path::{Path, PathBuf};

use questions::Editions;

use crate::{Comparison, Side};

/// Questions and answers of one kind.
pub struct Stored {
    /// What they are about, and the name of their folder.
    pub name: &'static str,
    /// Whether each answer begins with its question, so that there is no file of questions.
    is_one_file: bool,
    ask: fn(&dyn Side, &[u8]) -> Result<Answered, String>,
    /// Asks both sides of a comparison every question in every edition; none where no edition is taken.
    compare: Option<Compare>,
}

type Compare = fn(&mut Comparison, &[u8]) -> Result<(), String>;

/// All that is stored.
pub const ALL: [Stored; 8] = [
    Stored {
        name: "schema",
        is_one_file: false,
        ask: |side, questions| schema::ask(side, questions, Editions::First),
        compare: Some(|comparison, questions| schema::compare(comparison, questions, Editions::First)),
    },
    Stored {
        name: "schema_editions",
        is_one_file: false,
        ask: |side, questions| schema::ask(side, questions, Editions::BeforeEach),
        compare: Some(|comparison, questions| schema::compare(comparison, questions, Editions::BeforeEach)),
    },
    Stored { name: "comparison", is_one_file: false, ask: comparison::ask, compare: Some(comparison::compare) },
    Stored {
        name: "column",
        is_one_file: false,
        ask: |side, questions| column::ask(side, questions, Editions::First),
        compare: Some(|comparison, questions| column::compare(comparison, questions, Editions::First)),
    },
    Stored {
        name: "column_editions",
        is_one_file: false,
        ask: |side, questions| column::ask(side, questions, Editions::BeforeEach),
        compare: Some(|comparison, questions| column::compare(comparison, questions, Editions::BeforeEach)),
    },
    Stored { name: "timestamp", is_one_file: true, ask: timestamp::ask, compare: None },
    Stored { name: "int96", is_one_file: true, ask: int96::ask, compare: None },
    Stored { name: "boxes", is_one_file: true, ask: boxes::ask, compare: None },
];

/// Asks both sides of a comparison every stored question in every edition.
pub fn compare(comparison: &mut Comparison, folder: &Path) -> Result<(), String> {
    for stored in &ALL {
        let files = stored.files(folder)?;
        if let (Some(compare), Some(questions)) = (stored.compare, &files.questions) {
            compare(comparison, questions).map_err(|fault| format!("{}: {fault}", stored.name))?;
        }
    }
    Ok(())
}

/// The folder of all that is stored.
pub fn folder() -> PathBuf {
    Path::new(env!("CARGO_MANIFEST_DIR")).join("../stored")
}

/// The content of the files.
#[derive(Clone)]
struct Files {
    /// None where they stand with the answers.
    questions: Option<Vec<u8>>,
    answers: Vec<u8>,
}

/// What a side answers to all questions.
#[derive(Default)]
struct Answered {
    text: String,
    count: usize,
}

impl Answered {
    /// Adds an answer, of one line or several.
    fn add(&mut self, answer: impl std::fmt::Display) {
        writeln!(self.text, "{answer}").expect("a string takes any text");
        self.count += 1;
    }
}

/// Asks the questions that stand at the beginnings of lines, before a colon; each answer is a whole line.
fn ask_lines(lines: &[u8], line_of: impl Fn(&str) -> Option<String>) -> Result<Answered, String> {
    let mut answered = Answered::default();
    for (number, line) in (1..).zip(String::from_utf8_lossy(lines).lines()) {
        let question = line.split(':').next().unwrap_or_default();
        let answer = line_of(question).ok_or_else(|| format!("line {number}: no question in {line:?}"))?;
        answered.add(answer);
    }
    Ok(answered)
}

impl Stored {
    /// Asks a side all questions; answers how many there are, or the first line that it answers otherwise.
    pub fn check(&self, side: &dyn Side, folder: &Path) -> Result<usize, String> {
        self.hold(side, &self.files(folder)?)
    }

    fn files(&self, folder: &Path) -> Result<Files, String> {
        let read = |name| {
            let path = folder.join(self.name).join(name);
            std::fs::read(&path).map_err(|fault| format!("{}: {fault}", path.display()))
        };
        let questions = if self.is_one_file { None } else { Some(read("questions")?) };
        Ok(Files { questions, answers: read("answers")? })
    }

    fn hold(&self, side: &dyn Side, files: &Files) -> Result<usize, String> {
        let (questions, file) = match &files.questions {
            Some(questions) => (questions, "questions"),
            None => (&files.answers, "answers"),
        };
        let told = |fault| format!("{}/{file}, {fault}", self.name);
        let Answered { text, count } = (self.ask)(side, questions).map_err(told)?;
        match difference(&files.answers, text.as_bytes()) {
            None => Ok(count),
            Some(difference) => Err(format!("{}/answers, {difference}", self.name)),
        }
    }
}

/// The first line in which what is stored and what was answered differ.
fn difference(stored: &[u8], answered: &[u8]) -> Option<String> {
    let shown =
        |line: Option<&[u8]>| line.map_or("no line".into(), |line| format!("{:?}", String::from_utf8_lossy(line)));
    let is_end = |byte: &u8| *byte == b'\n';
    let (mut stored, mut answered) = (stored.split(is_end), answered.split(is_end));
    let mut number = 0;
    loop {
        number += 1;
        match (stored.next(), answered.next()) {
            (None, None) => return None,
            (stored, answered) if stored == answered => {}
            (stored, answered) => {
                return Some(format!("line {number}:\n  stored   {}\n  answered {}", shown(stored), shown(answered)));
            }
        }
    }
}
