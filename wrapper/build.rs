//! Finds the archive of the proved library, `libgriffeljol.a`, and has it linked.

use std::env;
use std::path::PathBuf;

/// Names the folder of the archive, if it is not the one that `tests/build` writes to.
const FOLDER: &str = "GRIFFELJOL_LIB";

fn main() {
    println!("cargo::rerun-if-env-changed={FOLDER}");
    let folder = env::var_os(FOLDER).map_or_else(|| package().join("../target/staticlib"), PathBuf::from);
    let archive = folder.join("libgriffeljol.a");
    println!("cargo::rerun-if-changed={}", archive.display());
    if (variable("CARGO_CFG_TARGET_ARCH"), variable("CARGO_CFG_TARGET_OS")) != ("x86_64".into(), "linux".into()) {
        println!("cargo::error=the archive of the proved library links into x86-64 Linux programs only");
    } else if !archive.is_file() {
        println!(
            "cargo::error=there is no {}: run `tests/build` in the repository, or set {FOLDER} to the absolute \
             path of the folder that has it",
            archive.display()
        );
    }
    println!("cargo::rustc-link-search=native={}", folder.display());
    println!("cargo::rustc-link-lib=static=griffeljol");
}

/// The folder of this package.
fn package() -> PathBuf {
    PathBuf::from(variable("CARGO_MANIFEST_DIR"))
}

/// A variable that cargo sets for every build script.
fn variable(name: &str) -> String {
    env::var(name).unwrap_or_else(|_| panic!("cargo sets {name}"))
}
