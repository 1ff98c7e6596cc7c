//! Bytes as a reader wants to see them.

use std::fmt::Write;

/// How many bytes are shown.
const SHOWN: usize = 120;

pub fn hex(bytes: &[u8]) -> String {
    let mut text = String::new();
    for byte in bytes.iter().take(SHOWN) {
        let _ = write!(text, "{byte:02x} ");
    }
    if bytes.len() > SHOWN {
        let _ = write!(text, ".. {} bytes", bytes.len());
    }
    text
}
