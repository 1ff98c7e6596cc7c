//! Links the proved libraries that only the comparison asks; `captions` links its own.

#[path = "../link.rs"]
mod link;

fn main() {
    println!("cargo::rerun-if-changed=build.rs");
    link::link(&["font_c", "tape_c"]);
}
