//! For build scripts: links proved libraries, and says how to make one that is missing.

use std::env;
use std::path::PathBuf;

/// Links the libraries of these names, and answers the folder where they are.
pub fn link(libraries: &[&str]) -> PathBuf {
    println!("cargo::rerun-if-changed=../link.rs");
    println!("cargo::rerun-if-env-changed=CAPTIONS_STATICLIB");
    let folder = folder();
    println!("cargo::rustc-link-search=native={}", folder.display());
    for name in libraries {
        let archive = folder.join(format!("lib{name}.a"));
        println!("cargo::rerun-if-changed={}", archive.display());
        if archive.is_file() {
            println!("cargo::rustc-link-lib=static={name}");
        } else {
            println!(
                "cargo::error=the proved library is not at {}: run `tools/staticlib {name}` in the repository first",
                archive.display()
            );
        }
    }
    folder
}

/// The folder that CAPTIONS_STATICLIB names (counted from the crate's folder, where it is no absolute
/// path), or else the one where `tools/staticlib` puts them.
fn folder() -> PathBuf {
    let here = PathBuf::from(env::var_os("CARGO_MANIFEST_DIR").unwrap_or_default());
    match env::var_os("CAPTIONS_STATICLIB") {
        Some(named) => here.join(named),
        None => here.join("../../target/staticlib"),
    }
}
