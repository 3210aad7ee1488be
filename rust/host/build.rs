//! Links libtip5_c.a, which stands in the folder that VARDRAKUP_ARCHIVES names.

use std::{env, fs};

fn main() {
    println!("cargo::rerun-if-env-changed=VARDRAKUP_ARCHIVES");
    let Ok(named) = env::var("VARDRAKUP_ARCHIVES") else {
        println!(
            "cargo::error=VARDRAKUP_ARCHIVES is not set: it names the folder that has libtip5_c.a"
        );
        return;
    };
    match fs::canonicalize(&named) {
        Ok(folder) => {
            println!("cargo::rerun-if-changed={}/libtip5_c.a", folder.display());
            println!("cargo::rustc-link-search=native={}", folder.display());
            println!("cargo::rustc-link-lib=static=tip5_c");
        }
        Err(error) => println!("cargo::error=VARDRAKUP_ARCHIVES={named}: {error}"),
    }
}
