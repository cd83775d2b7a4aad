//! The command `griffeljol`: rows, rewriting, the tree, comparison, single values, timestamps, INT96 times and boxes of
//! points, by the proved library.
//!
//! It judges nothing: every answer is the library's. Of an accepted sheet it reads names, logical types and checks itself, by
//! the layout of document 01 (`layout`), to say in words what the library answers.

mod answer;
mod arguments;
mod boxes;
mod compare;
mod compared;
mod differences;
mod failure;
mod files;
mod help;
mod hex;
mod int96;
mod json;
mod layout;
mod names;
mod points;
mod progress;
mod report;
mod rewrite;
mod rows;
mod table;
mod timestamp;
mod tree;
mod value;
mod values;
mod words;

use std::env;
use std::ffi::OsString;
use std::process::ExitCode;

use answer::Answer;
use arguments::{Arguments, BINARY, EDITION, FILE, HEX, JSON, OUTPUT, REPORT};
use failure::Failure;
use json::Json;

/// What a command is called, which options it takes, its help, and what it prints.
struct Command {
    name: &'static str,
    options: &'static [&'static str],
    help: &'static str,
    run: fn(Arguments) -> Result<Answer, Failure>,
}

const COMMANDS: [Command; 9] = [
    Command { name: "rows", options: &[EDITION, JSON], help: help::ROWS, run: rows::run },
    Command { name: "rewrite", options: &[EDITION, OUTPUT], help: help::REWRITE, run: rewrite::run },
    Command { name: "tree", options: &[EDITION, JSON], help: help::TREE, run: tree::run },
    Command { name: "compare", options: &[EDITION, JSON, REPORT], help: help::COMPARE, run: compare::run },
    Command { name: "value", options: &[EDITION, HEX, JSON], help: help::VALUE, run: value::run },
    Command { name: "timestamp", options: &[JSON], help: help::TIMESTAMP, run: timestamp::run },
    Command { name: "int96", options: &[FILE, JSON], help: help::INT96, run: int96::run },
    Command { name: "box", options: &[BINARY, JSON], help: help::BOX, run: boxes::run },
    Command { name: "inside", options: &[JSON], help: help::INSIDE, run: boxes::run_inside },
];

fn main() -> ExitCode {
    run(env::args_os().skip(1)).unwrap_or_else(|failure| failure.tell())
}

fn run(mut words: impl Iterator<Item = OsString>) -> Result<ExitCode, Failure> {
    let name = words.next().ok_or_else(|| Failure::arguments("no command is given"))?;
    if arguments::is_help(&name) {
        return print(help::ALL.to_owned().into());
    }
    let command = COMMANDS
        .iter()
        .find(|command| name == command.name)
        .ok_or_else(|| Failure::arguments(format!("there is no command {name:?}")))?;
    let Some(arguments) = Arguments::parse(words, command.options)? else {
        let of_edition = if command.options.contains(&EDITION) { help::EDITION } else { "" };
        return print([command.help, of_edition].concat().into());
    };
    let wants_json = arguments.has(JSON);
    match (command.run)(arguments) {
        Ok(answer) => print(answer),
        Err(Failure::Refused(refused)) if wants_json => {
            files::print(Json::Object(json::refusal_members(&refused)).line().as_bytes())?;
            Err(Failure::Refused(refused))
        }
        Err(failure) => Err(failure),
    }
}

/// Writes an answer, and gives its exit status.
fn print(answer: Answer) -> Result<ExitCode, Failure> {
    files::print(&answer.text)?;
    Ok(answer.status)
}
