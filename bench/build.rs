//! Links the archive that `tests/build` writes, and the peers in C and C++, compiled at -O3, but those of
//! boxes at -O2.
//!
//! Every function of each of them starts at a line of 64 bytes, and so do the functions in Rust (`.cargo/config.toml`). A short loop
//! can take twice as long where it crosses a line, and without that, where it does would change with every link. The peers' loops
//! start at a line too; the archive's stand where its compiler put them.

use std::env;
use std::path::{Path, PathBuf};
use std::process::{Command, Stdio};

fn main() {
    let out = PathBuf::from(env::var_os("OUT_DIR").expect("cargo sets OUT_DIR"));
    println!("cargo::rustc-link-search=native={}", out.display());
    link_archive(&out);
    println!("cargo::rustc-check-cfg=cfg(clang)");
    println!("cargo::rerun-if-changed=peers");
    let mut objects = vec![
        compile(&out, "cc", &["-std=c99", "-DFIRST_BAD_CHECK=first_bad_check_cc"], "block_checks.c", "checks_cc.o"),
        compile(&out, "cc", &["-std=c99", "-O2"], "boxes.c", "boxes.o"),
        compile(&out, "c++", &["-std=c++17"], "dates.cc", "dates.o"),
    ];
    if is_there("clang") {
        println!("cargo::rustc-cfg=clang");
        let words = ["-std=c99", "-DFIRST_BAD_CHECK=first_bad_check_clang"];
        objects.push(compile(&out, "clang", &words, "block_checks.c", "checks_clang.o"));
    }
    let archive = out.join("libpeers.a");
    run(Command::new("ar").arg("crs").arg(archive).args(objects));
    println!("cargo::rustc-link-lib=static=peers");
    println!("cargo::rustc-link-lib=dylib=stdc++");
}

/// The archive stands in the folder that GRIFFELJOL_LIB names, or where `rt` writes it.
fn link_archive(out: &Path) {
    const FOLDER: &str = "GRIFFELJOL_LIB";
    println!("cargo::rerun-if-env-changed={FOLDER}");
    let package = PathBuf::from(env::var_os("CARGO_MANIFEST_DIR").expect("cargo sets CARGO_MANIFEST_DIR"));
    let folder = env::var_os(FOLDER).map_or_else(|| package.join("../target/staticlib"), PathBuf::from);
    let archive = folder.join("libgriffeljol.a");
    assert!(archive.is_file(), "there is no {}: tests/build writes it", archive.display());
    println!("cargo::rerun-if-changed={}", archive.display());
    let aligned = out.join("libgriffeljol.a");
    run(Command::new("objcopy").args(["--set-section-alignment", ".text.*=64"]).arg(archive).arg(aligned));
    println!("cargo::rustc-link-lib=static=griffeljol");
}

/// Compiles a file of peers/ with some words, which come last, for the processor family and not for this machine, as
/// the archive is.
fn compile(out: &Path, compiler: &str, words: &[&str], source: &str, object: &str) -> PathBuf {
    let object = out.join(object);
    let source = Path::new("peers").join(source);
    let common = ["-O3", "-falign-functions=64", "-falign-loops=64", "-Wall", "-Wextra", "-c"];
    run(Command::new(compiler).args(common).args(words).arg(source).arg("-o").arg(&object));
    object
}

fn is_there(compiler: &str) -> bool {
    let words = Command::new(compiler).arg("--version").stdout(Stdio::null()).stderr(Stdio::null()).status();
    words.is_ok_and(|status| status.success())
}

fn run(command: &mut Command) {
    let status = command.status();
    assert!(status.is_ok_and(|status| status.success()), "failed: {command:?}");
}
