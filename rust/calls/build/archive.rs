//! Looks into an archive: for which machine it is, and which calls it has.

use std::path::Path;
use std::{env, fs};

pub struct Archive {
    name: &'static str,
    bytes: Vec<u8>,
}

impl Archive {
    /// The archive libNAME.a of a folder; none where the folder has none.
    pub fn open(folder: &Path, name: &'static str) -> Result<Option<Self>, String> {
        let file = folder.join(format!("lib{name}.a"));
        println!("cargo::rerun-if-changed={}", file.display());
        if !file.exists() {
            return Ok(None);
        }
        let bytes = fs::read(&file).map_err(|error| format!("{}: {error}", file.display()))?;
        Ok(Some(Self { name, bytes }))
    }

    pub fn name(&self) -> &str {
        self.name
    }

    /// Whether its code is for the machine that Rust builds for.
    pub fn is_native(&self) -> bool {
        let wanted = match env::var("CARGO_CFG_TARGET_ARCH").as_deref() {
            Ok("x86_64") => 62,
            Ok("aarch64") => 183,
            _ => return false,
        };
        self.machine() == Some(wanted)
    }

    /// The field `e_machine` of its first ELF file.
    fn machine(&self) -> Option<u16> {
        let at = find(&self.bytes, b"\x7fELF")?;
        let field = self.bytes.get(at + 18..at + 20)?;
        Some(u16::from_le_bytes(field.try_into().unwrap()))
    }

    /// Whether a symbol of this name is in it: the name stands in a string table.
    pub fn has(&self, name: &str) -> bool {
        find(&self.bytes, format!("{name}\0").as_bytes()).is_some()
    }
}

fn find(bytes: &[u8], part: &[u8]) -> Option<usize> {
    bytes.windows(part.len()).position(|window| window == part)
}
