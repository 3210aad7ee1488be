//! Takes the twenty-first source from the folder that VARDRAKUP_SOURCE names, makes the edits
//! listed here, puts the `use` line of the stand-ins into each file that needs it, and alters
//! nothing else. The result is in OUT_DIR for `lib.rs` to include. None of the source's text is
//! part of this repository.

use std::path::{Path, PathBuf};
use std::{env, fs};

/// The files that are taken, by their path below twenty-first/src.
const FILES: [&str; 8] = [
    "error.rs",
    "math/b_field_element.rs",
    "math/traits.rs",
    "math/x_field_element.rs",
    "tip5/inverse.rs",
    "tip5/mod.rs",
    "tip5/naive.rs",
    "util_types/sponge.rs",
];

/// Each edit: a file, a text that it has exactly once, and what takes its place. They only alter
/// what can be seen: the two test modules, a module of ours below `tip5`, one naive round, and a
/// macro that comes by `#[macro_use]` here.
const EDITS: [(&str, &str, &str); 4] = [
    ("math/x_field_element.rs", "use crate::bfe_vec;\n", ""),
    ("tip5/mod.rs", "#[cfg(test)]\nmod inverse;", "mod inverse;"),
    (
        "tip5/mod.rs",
        "#[cfg(test)]\nmod naive;",
        "mod naive;\n#[path = \"ACCESS\"]\npub mod access;",
    ),
    (
        "tip5/naive.rs",
        "    fn round(&mut self",
        "    pub(super) fn round(&mut self",
    ),
];

/// Our own files that the source expects beside its own.
const OURS: [(&str, &str); 2] = [
    ("src/stand_ins/avx512.rs", "tip5/avx512.rs"),
    ("src/stand_ins/digest.rs", "tip5/digest.rs"),
];

/// What a file needs to find the stand-ins for third-party crates; it goes above its first `use`.
const STAND_INS: &str = "use crate::stand_ins::*;\n";

/// The modules that hold the files, as the source's own lib.rs has them.
const MODULES: &str = r#"
#[allow(warnings)]
#[path = "OUT/error.rs"]
mod error;
#[allow(warnings)]
mod math {
    #[macro_use]
    #[path = "OUT/math/b_field_element.rs"]
    pub mod b_field_element;
    #[path = "OUT/math/traits.rs"]
    pub mod traits;
    #[path = "OUT/math/x_field_element.rs"]
    pub mod x_field_element;
    pub use crate::stand_ins::{bfield_codec, polynomial};
}
#[allow(warnings)]
#[path = "OUT/tip5/mod.rs"]
mod tip5;
#[allow(warnings)]
mod util_types {
    #[path = "OUT/util_types/sponge.rs"]
    pub mod sponge;
    pub use crate::stand_ins::merkle_tree;
}
"#;

fn main() {
    println!("cargo::rerun-if-changed=build.rs");
    println!("cargo::rustc-check-cfg=cfg(coverage_nightly)");
    println!("cargo::rerun-if-env-changed=VARDRAKUP_SOURCE");
    if let Err(reason) = make() {
        println!("cargo::error={reason}");
    }
}

fn make() -> Result<(), String> {
    let root = env::var("VARDRAKUP_SOURCE").map_err(|_| {
        "VARDRAKUP_SOURCE is not set: it names the folder that holds twenty-first/src".to_string()
    })?;
    let source = Path::new(&root).join("twenty-first/src");
    let out = PathBuf::from(env::var("OUT_DIR").unwrap());
    let here = PathBuf::from(env::var("CARGO_MANIFEST_DIR").unwrap());

    for file in FILES {
        let text = read(&source.join(file))?;
        let text = edited(file, text, &here)?;
        write(&out.join(file), &with_stand_ins(&text))?;
    }
    for (from, to) in OURS {
        let text = read(&here.join(from))?;
        write(&out.join(to), &text)?;
    }
    let modules = MODULES.replace("OUT", &out.display().to_string());
    write(&out.join("source.rs"), &modules)
}

/// The file's text after its edits; each must match exactly once.
fn edited(file: &str, mut text: String, here: &Path) -> Result<String, String> {
    let access = here.join("src/access/mod.rs").display().to_string();
    for (_, old, new) in EDITS.iter().filter(|(of, ..)| *of == file) {
        let times = text.matches(old).count();
        if times != 1 {
            return Err(format!(
                "{file}: the edit of {old:?} matches {times} times, and must match once"
            ));
        }
        text = text.replace(old, &new.replace("ACCESS", &access));
    }
    Ok(text)
}

/// The text with the stand-ins in scope. A file that begins with `use super::*` has them so.
fn with_stand_ins(text: &str) -> String {
    match text.find("\nuse ") {
        _ if text.starts_with("use ") => format!("{STAND_INS}{text}"),
        Some(at) if !text[at..].starts_with("\nuse super::*") => {
            format!("{}\n{STAND_INS}{}", &text[..at], &text[at + 1..])
        }
        _ => text.to_string(),
    }
}

fn read(path: &Path) -> Result<String, String> {
    println!("cargo::rerun-if-changed={}", path.display());
    fs::read_to_string(path).map_err(|error| format!("{}: {error}", path.display()))
}

fn write(path: &Path, text: &str) -> Result<(), String> {
    fs::create_dir_all(path.parent().unwrap())
        .and_then(|()| fs::write(path, text))
        .map_err(|error| format!("{}: {error}", path.display()))
}
