//! Makes the stored questions and answers: those of the programs in `crates`, and those in `tests/stored`.
//!
//! `answers NAME FOLDER` writes the questions, where they are made here, and the answers into the folder.
//! `answers --given NAME [EDITION]` reads questions from standard input and prints the answers to them; a program's in an edition, the first
//! without it.
//! `answers --check REPOSITORY` makes all anew and compares it with what is stored there.
#![forbid(unsafe_code)]

mod boxes;
mod bytes;
mod column;
mod column_editions;
mod comparison;
mod editions;
mod int96;
mod nodes;
mod plain_text;
mod random;
mod random_trees;
mod schema;
mod schema_editions;
mod schema_programs;
mod sheet_slots;
mod sheet_vectors;
mod timestamp;
mod wide;

use std::io::{Read, Write};
use std::path::Path;
use std::process::ExitCode;

use independent::edition::FIRST;

use Answers::{AsAsked, InEdition};

/// Questions and answers that are made here.
struct Stored {
    name: &'static str,
    place: Place,
    /// The questions, where they do not stand with the answers.
    questions: Option<fn() -> Vec<u8>>,
    answers: Answers,
}

/// The answers to questions.
enum Answers {
    /// Of a program, which takes an edition. Those that are stored are the first's.
    InEdition(fn(u32, &[u8]) -> Vec<u8>),
    /// Of the library: which edition is asked the questions say, or it is the first.
    AsAsked(fn(&[u8]) -> Vec<u8>),
}

impl Answers {
    /// Those that are stored.
    fn to(&self, questions: &[u8]) -> Vec<u8> {
        match self {
            InEdition(answers) => answers(FIRST, questions),
            AsAsked(answers) => answers(questions),
        }
    }
}

/// Where in the repository questions and answers stand, and under which names.
struct Place {
    folder: &'static str,
    questions: &'static str,
    answers: &'static str,
}

/// What a program reads and prints.
const PROGRAM: Place = Place { folder: "crates", questions: "stdin", answers: "stdout" };
/// What the linked library is asked by `tests/compare`.
const LIBRARY: Place = Place { folder: "tests/stored", questions: "questions", answers: "answers" };

const fn stored(name: &'static str, place: Place, questions: Option<fn() -> Vec<u8>>, answers: Answers) -> Stored {
    Stored { name, place, questions, answers }
}

const ALL: [Stored; 12] = [
    stored("sheet_vectors", PROGRAM, Some(sheet_vectors::input), InEdition(sheet_vectors::answers)),
    stored("sheet_slots", PROGRAM, Some(sheet_slots::input), InEdition(sheet_slots::answers)),
    stored("schema_rows", PROGRAM, Some(schema_programs::input), InEdition(schema_programs::rows)),
    stored("schema_rewrite", PROGRAM, Some(schema_programs::input), InEdition(schema_programs::rewritten)),
    stored("schema", LIBRARY, Some(schema::input), AsAsked(schema::answers)),
    stored("schema_editions", LIBRARY, Some(schema_editions::input), AsAsked(schema_editions::answers)),
    stored("comparison", LIBRARY, Some(comparison::input), AsAsked(comparison::answers)),
    stored("column", LIBRARY, Some(column::input), AsAsked(column::answers)),
    stored("column_editions", LIBRARY, Some(column_editions::input), AsAsked(column_editions::answers)),
    stored("timestamp", LIBRARY, None, AsAsked(timestamp::answers)),
    stored("int96", LIBRARY, None, AsAsked(int96::answers)),
    stored("boxes", LIBRARY, None, AsAsked(boxes::answers)),
];

fn main() -> ExitCode {
    let arguments: Vec<String> = std::env::args().skip(1).collect();
    let done = match arguments.iter().map(String::as_str).collect::<Vec<_>>()[..] {
        ["--list"] => {
            ALL.iter().for_each(|stored| println!("{}", stored.name));
            Ok(())
        }
        ["--given", name] => by_name(name).and_then(|stored| print_given(|given| stored.answers.to(given))),
        ["--given", name, edition] => in_edition(name, edition),
        ["--check", repository] => ALL.iter().try_for_each(|stored| {
            let folder = Path::new(repository).join(stored.place.folder).join(stored.name);
            check(stored, &folder)
        }),
        [name, folder] => by_name(name).and_then(|stored| store(stored, Path::new(folder))),
        _ => Err("usage: answers NAME FOLDER | --given NAME [EDITION] | --check REPOSITORY | --list".to_string()),
    };
    match done {
        Ok(()) => ExitCode::SUCCESS,
        Err(fault) => {
            eprintln!("{fault}");
            ExitCode::FAILURE
        }
    }
}

fn by_name(name: &str) -> Result<&'static Stored, String> {
    ALL.iter().find(|stored| stored.name == name).ok_or_else(|| format!("{name}: no such name"))
}

/// Answers the questions of a program in an edition.
fn in_edition(name: &str, edition: &str) -> Result<(), String> {
    let number = edition.parse().map_err(|_| format!("{edition}: no number of an edition"))?;
    match by_name(name)?.answers {
        InEdition(answers) => print_given(|given| answers(number, given)),
        AsAsked(_) => Err(format!("{name}: takes no edition")),
    }
}

/// Prints the answers to the questions on standard input.
fn print_given(answers: impl FnOnce(&[u8]) -> Vec<u8>) -> Result<(), String> {
    let mut given = Vec::new();
    std::io::stdin().read_to_end(&mut given).map_err(|fault| fault.to_string())?;
    std::io::stdout().write_all(&answers(&given)).map_err(|fault| fault.to_string())
}

/// The files that are made here, by their names.
fn files(stored: &Stored) -> Vec<(&'static str, Vec<u8>)> {
    let questions = stored.questions.map(|questions| questions());
    let answers = stored.answers.to(questions.as_deref().unwrap_or_default());
    let questions = questions.map(|questions| (stored.place.questions, questions));
    questions.into_iter().chain([(stored.place.answers, answers)]).collect()
}

fn store(stored: &Stored, folder: &Path) -> Result<(), String> {
    files(stored).into_iter().try_for_each(|(name, content)| {
        let path = folder.join(name);
        std::fs::write(&path, content).map_err(|fault| format!("{}: {fault}", path.display()))
    })
}

fn check(stored: &Stored, folder: &Path) -> Result<(), String> {
    files(stored).into_iter().try_for_each(|(name, content)| {
        let path = folder.join(name);
        let held = std::fs::read(&path).map_err(|fault| format!("{}: {fault}", path.display()))?;
        if held != content {
            return Err(format!("{} is not what the independent reader makes", path.display()));
        }
        println!("{}: as the independent reader makes it", path.display());
        Ok(())
    })
}
