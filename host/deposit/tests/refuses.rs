//! What keeps a reader from understanding the text is found: each fault is made in a copy.

use std::path::{Path, PathBuf};
use std::{env, fs, process};

fn repository() -> PathBuf {
    Path::new(env!("CARGO_MANIFEST_DIR")).join("../..")
}

/// The folders whose files the text is gathered from.
const FOLDERS: [&str; 15] = [
    "crates/font/specs",
    "crates/font/src",
    "crates/tape/specs",
    "crates/tape/src",
    "crates/wrap/specs",
    "crates/wrap/src",
    "crates/compositor/specs",
    "crates/compositor/src",
    "crates/job/specs",
    "crates/job/src",
    "crates/captions/specs",
    "crates/captions/src",
    "crates/specimen",
    "deposit",
    "docs",
];

/// A copy of what the text is gathered from. It stands outside the repository, where the gate would
/// take its definitions for ones that nothing proves, and goes when it is no longer needed.
struct Copy(PathBuf);

impl Copy {
    fn new(name: &str) -> Copy {
        let to = env::temp_dir().join(format!("deposit-{name}-{}", process::id()));
        for folder in FOLDERS {
            fs::create_dir_all(to.join(folder)).expect("a folder can be made");
            let entries = fs::read_dir(repository().join(folder)).expect("the folder is there");
            let paths = entries.map(|entry| entry.expect("the folder can be read").path());
            for from in paths.filter(|path| path.is_file()) {
                let file = from.file_name().expect("a file has a name");
                fs::copy(&from, to.join(folder).join(file)).expect("a file can be copied");
            }
        }
        Copy(to)
    }

    fn read(&self, file: &str) -> String {
        fs::read_to_string(self.0.join(file)).expect("the file is there")
    }

    fn write(&self, file: &str, text: &str) {
        fs::write(self.0.join(file), text).expect("a file can be written");
    }

    /// The fault that is found.
    fn fault(&self) -> String {
        deposit::check(&self.0).expect_err("the fault is found")
    }
}

impl Drop for Copy {
    fn drop(&mut self) {
        // What stays behind is in the system's folder for such things.
        let _ = fs::remove_dir_all(&self.0);
    }
}

/// What is said of a copy in which a file has `new` for `old`.
fn said(name: &str, file: &str, old: &str, new: &str) -> String {
    let copy = Copy::new(name);
    let text = copy.read(file);
    assert!(text.contains(old), "{file} has no `{old}`");
    copy.write(file, &text.replacen(old, new, 1));
    copy.fault()
}

#[test]
fn a_copy_without_faults_is_as_committed() {
    assert_eq!(deposit::check(&Copy::new("good").0), Ok(()));
}

#[test]
fn a_text_that_ends_too_soon() {
    let copy = Copy::new("short");
    copy.write(deposit::FILE, copy.read(deposit::FILE).trim_end());
    let said = copy.fault();
    assert!(said.contains("Its end differs"), "{said}");
}

#[test]
fn a_file_of_definitions_that_is_in_no_chapter() {
    let copy = Copy::new("chapter");
    copy.write(
        "crates/wrap/specs/Hyphens.antt",
        "-- Hyphens. Definitions only.\n",
    );
    let said = copy.fault();
    assert!(said.contains("Hyphens are in no chapter"), "{said}");
}

/// Makes a test of each fault that one replacement makes: the file, what stands there and what then
/// does, and what is said of it.
macro_rules! faults {
    ($(
        $test:ident: $file:literal, $old:literal => $new:expr, $($how:ident($words:literal)),+;
    )+) => {$(
        #[test]
        fn $test() {
            let said = said(stringify!($test), $file, $old, $new);
            $(assert!(said.$how($words), "{said}");)+
        }
    )+};
}

faults! {
    another_definition: "crates/font/specs/Font.antt",
        "cell_w = 8" => "cell_w = 9",
        contains("stale"), ends_with("cell_w = 9");

    another_struct: "crates/tape/src/lib.rt",
        "    pub italic: bool," => "    pub oblique: bool,",
        ends_with("oblique : Bool");

    another_comment_of_a_struct: "crates/tape/src/lib.rt",
        "// What a letter is drawn in." => "// What a letter looks like.",
        ends_with("-- What a letter looks like.");

    a_sign_of_the_library_that_the_notation_leaves_out: "deposit/notation.txt",
        "bit_or a b" => "either a b",
        contains("takes the name bit_or");

    a_name_that_stands_in_another_one_alone: "deposit/notation.txt",
        "bit_or a b" => "bit_or_of a b",
        contains("takes the name bit_or,");

    a_name_that_no_earlier_part_has: "crates/font/specs/Slant.antt",
        "cell_h, bearing_y, tabulate}" => "cell_h, bearing_y, tabulate, slope}",
        contains("takes the name slope");

    a_name_from_a_part_that_comes_later: "crates/tape/specs/Outcome.antt",
        "use Rattle.std.specs.Prelude." =>
            "use Rattle.tape.specs.Runs.{Run}\nuse Rattle.std.specs.Prelude.",
        contains("Runs, which does not stand before it");

    a_comment_that_leads_out_of_the_text: "crates/font/specs/Blend.antt",
        "-- the same, and" => "-- as proofs/PixelBlend has it, and",
        contains("`proofs/`");

    a_comment_that_leads_to_another_paper: "crates/font/specs/Upward.antt",
        "-- no pixel is on" => "-- document 02: no pixel is on",
        contains("`ocument 0`");

    a_sign_that_the_notation_does_not_name: "crates/font/specs/Blend.antt",
        "-- the same, and" => "-- ∀ the same, and",
        contains("the sign ∀ (U+2200)");

    a_name_that_two_parts_give: "crates/wrap/specs/Columns.antt",
        "is_tab : ℕ → Bool" => "is_letter : ℕ → Bool",
        contains("Command and Columns both give the name is_letter");

    a_name_that_a_definition_and_a_part_of_a_record_have: "crates/wrap/specs/Columns.antt",
        "is_tab : ℕ → Bool" => "italic : ℕ → Bool",
        contains("Style and Columns both give the name italic");

    a_case_with_the_name_of_another: "crates/tape/specs/Segments.antt",
        "    line_break : Segment" => "    ends : Segment",
        contains("Command and Segments both give the name ends");

    a_comment_that_is_too_wide: "crates/font/specs/Blend.antt",
        "-- the same, and" => &format!("-- the same{}, and", " again".repeat(20)),
        contains("has over 120 characters");

    a_page_that_is_too_wide: "deposit/examples.txt",
        "Followed by hand\n" => &format!("Followed by hand{}\n", ", step by step".repeat(9)),
        contains("examples.txt: line 1 has over 120");
}
