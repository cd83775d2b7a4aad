//! Links the archive that `tests/build` writes, where GRIFFELJOL_LIB names its folder.

use std::path::Path;

fn main() {
    println!("cargo::rerun-if-env-changed=GRIFFELJOL_LIB");
    println!("cargo::rustc-check-cfg=cfg(linked)");
    let Ok(folder) = std::env::var("GRIFFELJOL_LIB") else {
        return;
    };
    let folder = Path::new(&folder);
    let archive = folder.join("libgriffeljol.a");
    assert!(folder.is_absolute(), "GRIFFELJOL_LIB must be an absolute path");
    assert!(archive.exists(), "{} does not exist: tests/build writes it", archive.display());
    println!("cargo::rerun-if-changed={}", archive.display());
    println!("cargo::rustc-link-search=native={}", folder.display());
    println!("cargo::rustc-link-lib=static=griffeljol");
    println!("cargo::rustc-cfg=linked");
}
