//! Pipes that are closed too early.
//!
//! They are one test in a program of its own: what another test starts meanwhile has every pipe of this process open until it runs, and
//! so a pipe would not be closed where it is dropped here.

use std::io::{Read, Write};
use std::process::{Child, Command, Stdio};

/// The sample sheet, and its file.
const SAMPLE: &[u8] = include_bytes!("../../crates/schema_rows/stdin");
const FILE: &str = concat!(env!("CARGO_MANIFEST_DIR"), "/../crates/schema_rows/stdin");

#[test]
fn closed_pipes() {
    nobody_reads_standard_output();
    nobody_reads_standard_error();
    a_reader_that_stops_after_a_line();
    a_reader_that_stops_in_a_file_without_end();
    a_line_for_each_value_as_it_comes();
}

/// Starts the command with pipes at all three ends.
fn start(words: &[&str]) -> Child {
    Command::new(env!("CARGO_BIN_EXE_griffeljol"))
        .args(words)
        .stdin(Stdio::piped())
        .stdout(Stdio::piped())
        .stderr(Stdio::piped())
        .spawn()
        .expect("the command runs")
}

/// The status that a shell gives a command that SIGPIPE ended.
const CLOSED_PIPE: i32 = 141;

fn nobody_reads_standard_output() {
    let lines: &[&[&str]] = &[
        &["rows", "-"],
        &["rows", "--json", "-"],
        &["tree", "-"],
        &["tree", "--json", "-"],
        &["rewrite", "-", "-o", "-"],
        &["compare", "-", FILE],
        &["compare", FILE, "-", "--json"],
        &["compare", FILE, "-", "--report"],
        &["value", "6", "0", "0", "0", "0", "-"],
        &["int96", "decode", "--file", "-"],
        &["int96", "decode", "--file", "-", "--json"],
        &["box", "17", "-", "--binary"],
        &["box", "17", "-", "--binary", "--json"],
    ];
    for words in lines {
        let mut child = start(words);
        // The command waits for its input, so its output is closed before it writes.
        drop(child.stdout.take());
        child.stdin.take().expect("a pipe").write_all(SAMPLE).expect("input");
        let output = child.wait_with_output().expect("the command ends");
        assert!(output.stderr.is_empty(), "{words:?}");
        assert_eq!(output.status.code(), Some(CLOSED_PIPE), "{words:?}");
    }
}

fn nobody_reads_standard_error() {
    let mut child = start(&["rows", "-"]);
    drop(child.stderr.take());
    drop(child.stdin.take());
    let output = child.wait_with_output().expect("the command ends");
    assert!(output.stdout.is_empty());
    assert_eq!(output.status.code(), Some(1));
}

fn a_reader_that_stops_after_a_line() {
    let mut child = start(&["tree", "-"]);
    let mut stdout = child.stdout.take().expect("a pipe");
    child.stdin.take().expect("a pipe").write_all(SAMPLE).expect("input");
    let mut first = [0; 4];
    stdout.read_exact(&mut first).expect("output");
    assert_eq!(&first, b"node");
    drop(stdout);
    let output = child.wait_with_output().expect("the command ends");
    assert!(output.stderr.is_empty());
    // What fits into the pipe is written before anyone stops reading.
    assert_eq!(output.status.code(), Some(0));
}

fn a_reader_that_stops_in_a_file_without_end() {
    let mut child = start(&["int96", "decode", "--file", "/dev/zero"]);
    let mut lines = [0; 100_000];
    child.stdout.as_mut().expect("a pipe").read_exact(&mut lines).expect("output");
    assert!(lines.starts_with(b"0 refused 19 at 0, "));
    drop(child.stdout.take());
    let output = child.wait_with_output().expect("the command ends");
    assert!(output.stderr.is_empty());
    assert_eq!(output.status.code(), Some(CLOSED_PIPE));
}

fn a_line_for_each_value_as_it_comes() {
    let mut child = start(&["int96", "decode", "--file", "-"]);
    let mut stdin = child.stdin.take().expect("a pipe");
    let mut stdout = child.stdout.take().expect("a pipe");
    for index in 0..3 {
        stdin.write_all(b"\0\0\0\0\0\0\0\0\x8C\x3D\x25\0").expect("input");
        let expected = format!("{index} 0 1970-01-01 00:00:00.000000000\n");
        let mut line = vec![0; expected.len()];
        stdout.read_exact(&mut line).expect("output");
        assert_eq!(line, expected.into_bytes());
    }
    drop(stdin);
    assert_eq!(child.wait().expect("the command ends").code(), Some(0));
}
