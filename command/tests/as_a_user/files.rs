//! Files that are read and written.

use std::ffi::OsString;
use std::fs::{self, File, Permissions};
use std::os::unix::fs::{symlink, FileTypeExt, MetadataExt, PermissionsExt};
use std::path::Path;
use std::process::{Command, Output, Stdio};
use std::thread;

use crate::{failed, folder, griffeljol, refused, run, run_on, sample, text, SAMPLE, SAMPLE_ROWS};

/// Rewrites a file to another.
fn rewrite(file: &Path, out: &Path) -> Output {
    run(["rewrite".as_ref(), file.as_os_str(), "-o".as_ref(), out.as_os_str()])
}

/// Holds an output to success without a word.
#[track_caller]
fn done(output: &Output) {
    assert_eq!((text(&output.stdout), text(&output.stderr)), ("", ""));
    assert_eq!(output.status.code(), Some(0));
}

/// The names in a folder, in order.
fn names_in(folder: &Path) -> Vec<OsString> {
    let entries = fs::read_dir(folder).expect("a folder");
    let mut names: Vec<_> = entries.map(|entry| entry.expect("an entry").file_name()).collect();
    names.sort();
    names
}

/// The sample sheet, rewritten.
fn rewritten() -> Vec<u8> {
    let output = run(["rewrite", SAMPLE, "-o", "-"]);
    assert_eq!(output.status.code(), Some(0));
    assert_eq!(output.stdout.len(), sample().len());
    output.stdout
}

#[test]
fn what_cannot_be_read() {
    let folder = folder("what_cannot_be_read");
    let missing = folder.join("missing");
    for part in ["rows", "tree"] {
        failed(&run([part.as_ref(), missing.as_os_str()]), "No such file");
        failed(&run([part.as_ref(), folder.as_os_str()]), "Is a directory");
        failed(&run([part, ""]), "No such file");
        // It opens, and a read at its start fails.
        failed(&run([part, "/proc/self/mem"]), "cannot read");
    }
    failed(&rewrite(&missing, &folder.join("out")), "No such file");
    failed(&run(["value", "6", "0", "0", "0", "0", "/"]), "Is a directory");
    let output = griffeljol().args(["rows", "-"]).stdin(File::open(&folder).expect("a folder")).output();
    failed(&output.expect("the command runs"), "cannot read standard input");
    assert!(names_in(&folder).is_empty());
}

#[test]
fn a_file_that_may_not_be_read() {
    let file = folder("a_file_that_may_not_be_read").join("sheet");
    fs::write(&file, sample()).expect("a file");
    fs::set_permissions(&file, Permissions::from_mode(0o000)).expect("permissions");
    let output = run(["rows".as_ref(), file.as_os_str()]);
    // The superuser may read any file.
    if fs::read(&file).is_ok() {
        assert_eq!(text(&output.stdout), SAMPLE_ROWS);
    } else {
        failed(&output, "Permission denied");
    }
}

#[test]
fn rewriting_makes_a_sheet_of_the_same_rows() {
    let folder = folder("rewriting_makes_a_sheet_of_the_same_rows");
    let (out, again) = (folder.join("out"), folder.join("again"));
    done(&rewrite(Path::new(SAMPLE), &out));
    assert_eq!(fs::read(&out).expect("the output"), rewritten());
    assert_ne!(rewritten(), sample());
    assert_eq!(text(&run(["rows".as_ref(), out.as_os_str()]).stdout), SAMPLE_ROWS);
    done(&rewrite(&out, &again));
    assert_eq!(fs::read(&again).expect("the output"), rewritten());
    assert_eq!(names_in(&folder), ["again", "out"]);
}

#[test]
fn rewriting_replaces_a_file() {
    let folder = folder("rewriting_replaces_a_file");
    let (file, link) = (folder.join("file"), folder.join("link"));
    fs::write(&file, sample()).expect("a file");
    fs::set_permissions(&file, Permissions::from_mode(0o640)).expect("permissions");
    symlink("file", &link).expect("a link");
    // In place, and by a link, which stays one.
    done(&rewrite(&file, &link));
    assert_eq!(fs::read(&file).expect("the file"), rewritten());
    assert_eq!(fs::metadata(&file).expect("the file").mode() & 0o777, 0o640);
    assert!(fs::symlink_metadata(&link).expect("the link").is_symlink());
    assert_eq!(names_in(&folder), ["file", "link"]);
    // The folder stays, and `rt ci` takes no link below the repository.
    fs::remove_file(&link).expect("the link is removed");
}

#[test]
fn a_refusal_leaves_the_output_as_it_was() {
    let folder = folder("a_refusal_leaves_the_output_as_it_was");
    let out = folder.join("out");
    fs::write(&out, "kept").expect("a file");
    let before = fs::metadata(&out).expect("the file");
    let words = ["rewrite", "-", "-o", out.to_str().expect("text")];
    refused(&run_on(&words, b"x"), "refused 1 at 0", "sheet length 0, not a multiple of 512, or over 65,536");
    let words = [&words[..], &["--edition", "4"]].concat();
    refused(&run_on(&words, &sample()), "refused 21 at 0", "edition unknown");
    let after = fs::metadata(&out).expect("the file");
    assert_eq!(fs::read(&out).expect("the file"), b"kept");
    assert_eq!((before.ino(), before.modified().ok()), (after.ino(), after.modified().ok()));
    assert_eq!(names_in(&folder), ["out"]);
    // Nor is an output made that was not there.
    let words = ["rewrite", "-", "-o", folder.join("new").to_str().expect("text")].map(str::to_owned);
    assert_eq!(run_on(&words.each_ref().map(String::as_str), b"x").status.code(), Some(1));
    assert_eq!(names_in(&folder), ["out"]);
}

#[test]
fn a_failure_while_writing_leaves_the_output_as_it_was() {
    let folder = folder("a_failure_while_writing_leaves_the_output_as_it_was");
    let out = folder.join("out");
    fs::write(&out, "kept").expect("a file");
    // No file may grow, and the signal that would tell so is ignored.
    let output = Command::new("sh")
        .args([
            "-c",
            "trap '' XFSZ; ulimit -f 0; exec \"$0\" \"$@\"",
            env!("CARGO_BIN_EXE_griffeljol"),
            "rewrite",
            SAMPLE,
            "-o",
        ])
        .arg(&out)
        .output();
    failed(&output.expect("the command runs"), "File too large");
    assert_eq!(fs::read(&out).expect("the file"), b"kept");
    assert_eq!(names_in(&folder), ["out"]);
}

#[test]
fn what_cannot_be_written() {
    let folder = folder("what_cannot_be_written");
    let sample = Path::new(SAMPLE);
    failed(&rewrite(sample, &folder), "Is a directory");
    failed(&rewrite(sample, &folder.join("missing/out")), "No such file");
    failed(&rewrite(sample, &folder.join("out/")), "cannot write");
    failed(&rewrite(sample, Path::new("")), "cannot write");
    failed(&rewrite(sample, Path::new("/proc/out")), "cannot write");
    assert!(names_in(&folder).is_empty());
    let full = File::options().write(true).open("/dev/full").expect("a full device");
    let output = griffeljol().args(["rows", SAMPLE]).stdout(full).output().expect("the command runs");
    failed(&output, "cannot write standard output");
}

#[test]
fn a_file_that_may_not_be_written_is_kept() {
    let folder = folder("a_file_that_may_not_be_written_is_kept");
    let out = folder.join("out");
    fs::write(&out, "kept").expect("a file");
    fs::set_permissions(&out, Permissions::from_mode(0o444)).expect("permissions");
    // The superuser may write any file.
    if File::options().write(true).open(&out).is_err() {
        failed(&rewrite(Path::new(SAMPLE), &out), "Permission denied");
        assert_eq!(fs::read(&out).expect("the file"), b"kept");
    }
    assert_eq!(names_in(&folder), ["out"]);
}

#[test]
fn rewriting_into_a_named_pipe() {
    let pipe = folder("rewriting_into_a_named_pipe").join("pipe");
    assert!(Command::new("mkfifo").arg(&pipe).status().expect("mkfifo runs").success());
    let reader = thread::spawn({
        let pipe = pipe.clone();
        move || fs::read(pipe).expect("the pipe")
    });
    done(&rewrite(Path::new(SAMPLE), &pipe));
    assert!(fs::metadata(&pipe).expect("the pipe").file_type().is_fifo());
    assert_eq!(reader.join().expect("the reader"), rewritten());
}

#[test]
fn names_that_look_like_options() {
    let folder = folder("names_that_look_like_options");
    fs::write(folder.join("-o"), sample()).expect("a file");
    let output = griffeljol().args(["rows", "--", "-o"]).current_dir(&folder).stdin(Stdio::null()).output();
    assert_eq!(text(&output.expect("the command runs").stdout), SAMPLE_ROWS);
    let output = griffeljol().args(["rewrite", "-o", "out", "--", "-o"]).current_dir(&folder).output();
    done(&output.expect("the command runs"));
    assert_eq!(names_in(&folder), ["-o", "out"]);
}
