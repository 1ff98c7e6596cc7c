//! Looks for the two original files and, where both are there, declares them as modules of this
//! crate: copies in the build's own folder, each with the text of `append/` behind it, since what the
//! comparison calls there is private, and `compositor.rs` then with its draw loop once more and a
//! counter in it. A third module is `compositor.rs` once more, and so is all behind it, with its fixed
//! numbers made settings.

mod changes;
mod counted;
mod house;

use std::env;
use std::fs;
use std::io;
use std::path::{Path, PathBuf};

const FILES: [&str; 2] = ["font.rs", "compositor.rs"];
const FONT: &str = "font";
/// The module whose numbers are settings.
const HOUSE: &str = "house";
/// The modules, and the file that each is made of. All but the font have a draw loop.
const MODULES: [(&str, &str); 3] = [
    (FONT, FILES[0]),
    ("compositor", FILES[1]),
    (HOUSE, FILES[1]),
];

fn main() -> io::Result<()> {
    println!("cargo::rustc-check-cfg=cfg(original)");
    for own in ["build.rs", "changes.rs", "counted.rs", "house.rs", "append"] {
        println!("cargo::rerun-if-changed={own}");
    }
    println!("cargo::rerun-if-env-changed=CAPTIONS_RUST");
    let folder = folder();
    println!(
        "cargo::rustc-env=ORIGINAL_LOOKED_IN={}",
        shown(&folder).display()
    );
    if FILES.iter().all(|name| folder.join(name).is_file()) {
        declare(&folder)
    } else {
        // A path that is missing makes cargo look again at every build.
        println!("cargo::rerun-if-changed={}", folder.display());
        for name in FILES {
            println!("cargo::rerun-if-changed={}", folder.join(name).display());
        }
        Ok(())
    }
}

/// The folder that CAPTIONS_RUST names (counted from this crate's folder, where it is no absolute
/// path), or else the one beside the repository.
fn folder() -> PathBuf {
    let here = PathBuf::from(env::var_os("CARGO_MANIFEST_DIR").unwrap_or_default());
    match env::var_os("CAPTIONS_RUST") {
        Some(named) => here.join(named),
        None => here.join("../../../shared/docs/src/src"),
    }
}

/// The folder as a reader wants to see it: with no `..` in it, where that can be told.
fn shown(folder: &Path) -> PathBuf {
    folder
        .canonicalize()
        .unwrap_or_else(|_| folder.to_path_buf())
}

/// Writes the modules to `original.rs`, which `lib.rs` includes, and sets the cfg `original`.
fn declare(folder: &Path) -> io::Result<()> {
    let out = PathBuf::from(env::var_os("OUT_DIR").unwrap_or_default());
    let mut modules = String::new();
    for (module, name) in MODULES {
        let file = folder.join(name).canonicalize()?;
        println!("cargo::rerun-if-changed={}", file.display());
        let text = fs::read_to_string(&file)?;
        let append = fs::read_to_string(Path::new("append").join(name))?;
        let made = made(module, text, &append).unwrap_or_else(|found| {
            let file = file.display();
            println!("cargo::error=no module `{module}`, {file} is not as expected: {found}");
            String::new()
        });
        let copy = out.join(module).with_extension("rs");
        fs::write(&copy, made)?;
        modules.push_str(&format!(
            "#[allow(warnings)]\n#[path = {copy:?}]\npub mod {module};\n"
        ));
    }
    fs::write(out.join("original.rs"), modules)?;
    println!("cargo::rustc-cfg=original");
    Ok(())
}

/// A module's text: that of its file, with what `append/` has for it and, behind a draw loop, the
/// counted one; or what was not found in it.
fn made(module: &str, text: String, append: &str) -> Result<String, String> {
    let text = match module {
        HOUSE => house::text(&text)?,
        _ => text,
    };
    let counted = match module {
        FONT => counted::lookup(&text).map(|()| String::new())?,
        _ => counted::methods(&text)?,
    };
    Ok(text + append + &counted)
}
