//! Writes the wrong versions of the independent reader, and those that are not wrong, all into one file of modules.
//!
//! A version has its own copy of the changed module and of those that use it, directly or not; its other modules are the reader's.

use std::collections::{BTreeMap, BTreeSet};
use std::fmt::Write;
use std::path::Path;
use std::{env, fs};

mod wrong;

use wrong::Wrong;

/// The texts of the reader's modules, by their names.
type Sources = BTreeMap<String, String>;

/// The module that has all versions, in `src/main.rs`.
const HOME: &str = "crate::versions";

fn main() {
    match write_versions() {
        Ok(()) => println!("cargo::rerun-if-changed=build.rs\ncargo::rerun-if-changed=wrong.rs"),
        Err(fault) => println!("cargo::error={fault}"),
    }
}

fn write_versions() -> Result<(), String> {
    let folder = Path::new("../../../independent/src");
    println!("cargo::rerun-if-changed={}", folder.display());
    let mut sources = sources(folder)?;
    let library = sources.remove("lib").ok_or("the reader has no lib.rs")?;
    let mut text = String::new();
    let mut lists = [String::new(), String::new()];
    let all = wrong::ALL.iter().map(|wrong| (0, wrong)).chain(wrong::FREE.iter().map(|free| (1, free)));
    for (number, (list, wrong)) in all.enumerate() {
        let name = format!("wrong_{number:02}");
        let changed_module = wrong.file.trim_end_matches(".rs");
        let mut changed = sources.clone();
        let module = changed.get_mut(changed_module).ok_or_else(|| format!("the reader has no {}", wrong.file))?;
        *module = with_change(wrong, module)?;
        text += &version(&name, &library, &changed, &with_users(changed_module, &sources));
        writeln!(text, "compare::side!(Side{number:02}, {name});").expect("a string takes any text");
        writeln!(lists[list], "    ({:?}, &Side{number:02}),", wrong.title).expect("a string takes any text");
    }
    let [all, free] = lists;
    for (comment, name, list) in [
        ("What is wrong with each version, and it.", "ALL", all),
        ("What is another in each version that is not wrong, and it.", "FREE", free),
    ] {
        write!(text, "/// {comment}\npub const {name}: &[(&str, &dyn compare::Side)] = &[\n{list}];\n")
            .expect("a string takes any text");
    }
    let out = env::var("OUT_DIR").map_err(|fault| format!("OUT_DIR: {fault}"))?;
    fs::write(Path::new(&out).join("versions.rs"), text).map_err(|fault| fault.to_string())
}

/// The texts of the library's modules, without the programs beside it.
fn sources(folder: &Path) -> Result<Sources, String> {
    let told = |fault: std::io::Error| format!("{}: {fault}", folder.display());
    let mut sources = Sources::new();
    for entry in fs::read_dir(folder).map_err(told)? {
        let path = entry.map_err(told)?.path();
        if path.extension().is_some_and(|extension| extension == "rs") {
            let name = path.file_stem().expect("a file has a name").to_string_lossy().into_owned();
            sources.insert(name, fs::read_to_string(&path).map_err(told)?);
        }
    }
    Ok(sources)
}

/// The text of a module with the one change that makes it wrong.
fn with_change(wrong: &Wrong, text: &str) -> Result<String, String> {
    if text.matches(wrong.old).count() != 1 {
        return Err(format!("{}: {:?} does not stand once in {}", wrong.title, wrong.old, wrong.file));
    }
    Ok(text.replace(wrong.old, wrong.new))
}

/// A module and those that use it, directly or not.
fn with_users(module: &str, sources: &Sources) -> BTreeSet<String> {
    let mut users = BTreeSet::from([module.to_string()]);
    while let Some((user, _)) =
        sources.iter().find(|(name, text)| !users.contains(*name) && users.iter().any(|module| uses(text, module)))
    {
        users.insert(user.clone());
    }
    users
}

/// Whether a text uses a module, whose path then begins with `crate`.
fn uses(text: &str, module: &str) -> bool {
    text.split("crate::").skip(1).any(|rest| {
        let end = rest.find(|c: char| c != '_' && !c.is_ascii_alphanumeric());
        rest[..end.unwrap_or(rest.len())] == *module
    })
}

/// A version of the reader as one module, with copies of some modules.
fn version(name: &str, library: &str, sources: &Sources, copied: &BTreeSet<String>) -> String {
    let mut text = format!("pub mod {name} {{\n");
    for line in library.lines().filter(|line| !line.starts_with("//!") && !line.starts_with("#![")) {
        match line.strip_prefix("pub mod ").and_then(|rest| rest.strip_suffix(';')) {
            Some(module) if copied.contains(module) => {
                let copy = sources[module].replace("crate::", &format!("{HOME}::{name}::"));
                write!(text, "pub mod {module} {{\n{copy}}}\n")
            }
            Some(module) => writeln!(text, "pub use independent::{module}::{{self}};"),
            // The comparison itself, a crate, has the name of a module.
            None => writeln!(text, "{}", line.replace("pub use ", "pub use self::")),
        }
        .expect("a string takes any text");
    }
    text + "}\n"
}
