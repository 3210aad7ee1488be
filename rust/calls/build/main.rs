//! Makes our calls reachable from Rust. The headers list them; VARDRAKUP_ARCHIVES names the folder
//! that has the archives, whose functions are linked in.

mod archive;
mod generate;
mod header;
mod kinds;

use archive::Archive;
use std::path::{Path, PathBuf};
use std::{env, fs};

/// Each library and the header that declares its calls.
const LIBRARIES: [(&str, &str); 2] = [("probe", "probe.h"), ("tip5_c", "../../include/tip5.h")];

fn main() {
    println!("cargo::rerun-if-changed=build");
    println!("cargo::rerun-if-env-changed=VARDRAKUP_ARCHIVES");
    println!("cargo::rustc-check-cfg=cfg(linked)");
    if let Err(reason) = make() {
        println!("cargo::error={reason}");
    }
}

fn make() -> Result<(), String> {
    let out = PathBuf::from(env::var("OUT_DIR").unwrap());
    let folder = folder()?;
    let mut archives = vec![];
    let mut calls = vec![];
    for (library, header) in LIBRARIES {
        println!("cargo::rerun-if-changed={header}");
        let text = fs::read_to_string(header).map_err(|error| format!("{header}: {error}"))?;
        let archive = match &folder {
            Some(folder) => Archive::open(folder, library)?,
            None => None,
        };
        for mut call in header::calls(header, &text)? {
            call.present = archive.as_ref().is_some_and(|it| it.has(&call.name));
            calls.push(call);
        }
        archives.extend(archive);
    }
    write(&out.join("table.rs"), &generate::table(&calls))?;
    match (folder, &archives[..]) {
        (None, _) => Ok(()),
        (Some(folder), []) => Err(format!("{} has no archive of ours", folder.display())),
        (Some(folder), all) if all.iter().all(Archive::is_native) => {
            println!("cargo::rustc-link-search=native={}", folder.display());
            for archive in all {
                println!("cargo::rustc-link-lib=static={}", archive.name());
            }
            println!("cargo::rustc-cfg=linked");
            write(&out.join("linked.rs"), &generate::rust_calls(&calls))
        }
        (Some(folder), _) => Err(format!(
            "{} has archives for another machine",
            folder.display()
        )),
    }
}

/// The folder of archives; none where none is named.
fn folder() -> Result<Option<PathBuf>, String> {
    let Ok(named) = env::var("VARDRAKUP_ARCHIVES") else {
        return Ok(None);
    };
    let folder = fs::canonicalize(&named);
    let folder = folder.map_err(|error| format!("VARDRAKUP_ARCHIVES={named}: {error}"))?;
    Ok(Some(folder))
}

/// The Rust type of a C type.
fn rust_type(c: &str) -> &str {
    match c {
        "uint8_t" => "u8",
        "uint32_t" => "u32",
        "uint64_t" => "u64",
        "size_t" => "usize",
        other => panic!("no Rust type for {other}"),
    }
}

fn write(path: &Path, text: &str) -> Result<(), String> {
    fs::write(path, text).map_err(|error| format!("{}: {error}", path.display()))
}
