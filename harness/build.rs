//! Links the static libraries that tools/build made: from the repository's target/staticlib, or from the folder in ALBA_STATICLIB.

use std::{env, path::PathBuf, process};

const LIBRARIES: [&str; 3] = ["sampling", "centralized_telescope", "harness_exports"];

fn main() {
    println!("cargo:rerun-if-env-changed=ALBA_STATICLIB");
    let here = PathBuf::from(env::var_os("CARGO_MANIFEST_DIR").expect("Cargo sets CARGO_MANIFEST_DIR"));
    let folder = match env::var_os("ALBA_STATICLIB") {
        Some(named) => PathBuf::from(named),
        None => here.join("../target/staticlib"),
    };
    if folder.is_relative() {
        stop("ALBA_STATICLIB must be a full path");
    }
    println!("cargo:rustc-link-search=native={}", folder.display());
    for name in LIBRARIES {
        let archive = folder.join(format!("lib{name}.a"));
        println!("cargo:rerun-if-changed={}", archive.display());
        if !archive.is_file() {
            stop(&format!("{} is missing; `tools/build lib{name}.a` makes it", archive.display()));
        }
        println!("cargo:rustc-link-lib=static={name}");
    }
    if env::var_os("CARGO_FEATURE_BENCH").is_some() {
        println!("cargo:rustc-link-lib=crypto");
    }
}

fn stop(why: &str) -> ! {
    eprintln!("harness: {why}");
    process::exit(1)
}
