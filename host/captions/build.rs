//! Links the proved library, and tells the tests where it is.

#[path = "../link.rs"]
mod link;

fn main() {
    println!("cargo::rerun-if-changed=build.rs");
    let folder = link::link(&["captions"]);
    let archive = folder.join("libcaptions.a");
    println!("cargo::rustc-env=CAPTIONS_ARCHIVE={}", archive.display());
}
