//! The committed text is the one that the definitions give.

use std::path::Path;

#[test]
fn definitions_are_as_committed() {
    let root = Path::new(env!("CARGO_MANIFEST_DIR")).join("../..");
    if let Err(fault) = deposit::check(&root) {
        panic!("{fault}");
    }
}
