//! The command, run as a user runs it.

mod answers;
mod arguments;
mod boxes;
mod compare;
mod files;
mod int96;
mod refusals;
mod sheet;

use std::ffi::OsStr;
use std::fs;
use std::io::Write;
use std::path::{Path, PathBuf};
use std::process::{Command, Output, Stdio};

/// The sample sheet.
const SAMPLE: &str = concat!(env!("CARGO_MANIFEST_DIR"), "/../crates/schema_rows/stdin");
/// What is printed of it.
const SAMPLE_ROWS: &str = include_str!("../../../crates/schema_rows/stdout");

fn sample() -> Vec<u8> {
    fs::read(SAMPLE).expect("the sample sheet")
}

fn griffeljol() -> Command {
    Command::new(env!("CARGO_BIN_EXE_griffeljol"))
}

/// Runs the command on words.
fn run<W: AsRef<OsStr>>(words: impl IntoIterator<Item = W>) -> Output {
    griffeljol().args(words).stdin(Stdio::null()).output().expect("the command runs")
}

/// Runs the command on words with bytes on standard input.
fn run_on(words: &[&str], input: &[u8]) -> Output {
    let mut child = griffeljol()
        .args(words)
        .stdin(Stdio::piped())
        .stdout(Stdio::piped())
        .stderr(Stdio::piped())
        .spawn()
        .expect("the command runs");
    // The command need not read all of it.
    let _ = child.stdin.take().expect("a pipe").write_all(input);
    child.wait_with_output().expect("the command ends")
}

/// Runs a line of words on standard input and holds what it prints to a text.
#[track_caller]
fn prints(line: &str, input: &[u8], expected: &str) {
    let output = run_on(&line.split(' ').collect::<Vec<_>>(), input);
    assert_eq!(text(&output.stderr), "", "{line}");
    assert_eq!(text(&output.stdout), expected, "{line}");
    assert_eq!(output.status.code(), Some(0), "{line}");
}

/// Holds an output to a refusal: its line and its meaning on standard error, nothing on standard output, status 1.
#[track_caller]
fn refused(output: &Output, refusal: &str, meaning: &str) {
    assert_eq!(text(&output.stderr), format!("{refusal}\n{meaning}\n"));
    assert_eq!(text(&output.stdout), "");
    assert_eq!(output.status.code(), Some(1));
}

/// Holds an output to a failure: one line on standard error with these words, nothing on standard output, status 2.
#[track_caller]
fn failed(output: &Output, words: &str) {
    let stderr = text(&output.stderr);
    assert!(stderr.starts_with("griffeljol: ") && stderr.contains(words), "{stderr}");
    assert_eq!(stderr.find('\n'), Some(stderr.len() - 1), "{stderr}");
    assert_eq!(text(&output.stdout), "");
    assert_eq!(output.status.code(), Some(2));
}

fn text(bytes: &[u8]) -> &str {
    std::str::from_utf8(bytes).expect("text")
}

/// An empty folder of a test's own.
fn folder(name: &str) -> PathBuf {
    let folder = Path::new(env!("CARGO_TARGET_TMPDIR")).join(name);
    let _ = fs::remove_dir_all(&folder);
    fs::create_dir_all(&folder).expect("a folder");
    folder
}
