//! `include/captions.h`: `caller.c`, compiled as C and as C++, and `stack.c`, linked with the
//! library and run; and its names and numbers, held to those of the library's source and of the
//! wrapper.

use captions::raw::{Record, Settings, Stripes};
use captions::{
    Align, COLUMNS_MAX, Cause, GlyphMode, LETTERS_MAX, LINE_HEIGHT_MAX, OUTLINE_CAP_MAX,
    RECORD_BYTES, SIDE_MARGIN_MAX, SIDE_MAX, SLANT_MAX, STRIPES_MAX, TAPE_MAX, WORKSPACE_BYTES,
};
use std::mem::{offset_of, size_of};
use std::path::{Path, PathBuf};
use std::process::Command;
use std::{env, fs};

const INCLUDE: &str = concat!(env!("CARGO_MANIFEST_DIR"), "/../../include");
const HEADER: &str = concat!(env!("CARGO_MANIFEST_DIR"), "/../../include/captions.h");
const TESTS: &str = concat!(env!("CARGO_MANIFEST_DIR"), "/tests");
const SOURCE: &str = concat!(
    env!("CARGO_MANIFEST_DIR"),
    "/../../crates/captions/src/lib.rt"
);

const WARNINGS: [&str; 4] = ["-Wall", "-Wextra", "-Wpedantic", "-Werror"];

struct Language {
    name: &'static str,
    /// The variable that names a compiler, and the usual one.
    compiler: [&'static str; 2],
    flags: &'static [&'static str],
}

const C: Language = Language {
    name: "c",
    compiler: ["CC", "cc"],
    flags: &["-std=c99", "-Wshadow", "-Wconversion", "-pthread"],
};

const CPP: Language = Language {
    name: "c++",
    compiler: ["CXX", "c++"],
    flags: &["-std=c++11"],
};

/// Compiles a program as one in this language; answers where it is.
fn compile(file: &str, language: &Language) -> PathBuf {
    let [variable, usual] = language.compiler;
    let compiler = env::var(variable).unwrap_or(usual.to_string());
    let program = Path::new(env!("CARGO_TARGET_TMPDIR")).join(format!("{file}-{}", language.name));
    let compiled = Command::new(&compiler)
        .args(["-x", language.name, "-I", INCLUDE])
        .args(WARNINGS)
        .args(language.flags)
        .arg(Path::new(TESTS).join(file))
        .args(["-x", "none", env!("CAPTIONS_ARCHIVE"), "-o"])
        .arg(&program)
        .output()
        .unwrap_or_else(|error| {
            panic!(
                "the compiler `{compiler}` does not start ({error}): {variable} may name another"
            )
        });
    let told = String::from_utf8_lossy(&compiled.stderr);
    assert!(
        compiled.status.success(),
        "`{compiler}` does not compile {file}:\n{told}"
    );
    program
}

/// What a program writes, which has to end well.
fn written(program: &Path) -> String {
    let ran = Command::new(program).output().expect("the program starts");
    let [written, told] = [&ran.stdout, &ran.stderr].map(|bytes| String::from_utf8_lossy(bytes));
    assert!(ran.status.success(), "{}:\n{written}{told}", ran.status);
    written.into_owned()
}

const CALLER: &str = "2119 checks passed\n";

#[test]
fn a_caller_in_c() {
    assert_eq!(written(&compile("caller.c", &C)), CALLER);
}

#[test]
fn a_caller_in_cpp() {
    assert_eq!(written(&compile("caller.c", &CPP)), CALLER);
}

#[test]
fn a_call_needs_no_more_stack_than_the_header_says() {
    let written = written(&compile("stack.c", &C));
    assert_eq!(written.lines().count(), 4, "{written}");
}

fn read(path: &str) -> String {
    fs::read_to_string(path).unwrap_or_else(|error| panic!("{path}: {error}"))
}

/// What stands between a function's parentheses, where the text declares it so.
fn parameters<'a>(text: &'a str, declared: &str) -> impl Iterator<Item = &'a str> {
    let (_, rest) = text
        .split_once(declared)
        .unwrap_or_else(|| panic!("no `{declared}`"));
    let (inside, _) = rest.split_once(')').expect("the parameters end");
    inside
        .split(',')
        .map(str::trim)
        .filter(|parameter| !parameter.is_empty())
}

/// A parameter of the library's source in C.
fn in_c(parameter: &str) -> Vec<String> {
    let (name, of) = parameter.split_once(": ").expect("a name and a type");
    let slice = |of: &str| vec![format!("{of} *{name}"), format!("size_t {name}_len")];
    match of {
        "u32" => vec![format!("uint32_t {name}")],
        "&[u8]" => slice("const uint8_t"),
        "&mut [u8]" => slice("uint8_t"),
        "&[u32; 12]" => vec![format!("const captions_settings *{name}")],
        "&[u32; 65]" => vec![format!("const captions_stripes *{name}")],
        "&mut [u32; 129]" => vec![format!("captions_record *{name}")],
        _ => panic!("no type of C for `{of}`"),
    }
}

#[test]
fn the_header_declares_the_functions_of_the_library() {
    let (header, source) = (read(HEADER), read(SOURCE));
    let functions = [
        "captions_wrap",
        "captions_draw",
        "captions_open",
        "captions_work",
    ];
    for function in functions {
        let due: Vec<String> = parameters(&source, &format!("pub extern \"C\" fn {function}("))
            .flat_map(in_c)
            .collect();
        let declared: Vec<&str> = parameters(&header, &format!("\nuint64_t {function}(")).collect();
        assert_eq!(declared, due, "{function}");
    }
    assert_eq!(
        source.matches("pub extern \"C\" fn").count(),
        functions.len()
    );
}

/// What the header declares between these words, without comments: its lines.
fn declared<'a>(header: &'a str, from: &str, to: &str) -> Vec<&'a str> {
    let (before, _) = header.split_once(to).unwrap_or_else(|| panic!("no `{to}`"));
    let (_, inside) = before
        .rsplit_once(from)
        .unwrap_or_else(|| panic!("no `{from}`"));
    let code = inside.lines().map(|line| line.split("/*").next());
    code.flatten()
        .map(str::trim)
        .filter(|line| !line.is_empty())
        .collect()
}

#[test]
fn settings_have_the_fields_of_the_wrapper_s() {
    let fields = [
        ("uint32_t width;", offset_of!(Settings, width)),
        ("uint32_t height;", offset_of!(Settings, height)),
        (
            "uint32_t default_color;",
            offset_of!(Settings, default_color),
        ),
        (
            "uint32_t outline_color;",
            offset_of!(Settings, outline_color),
        ),
        ("uint32_t line_height;", offset_of!(Settings, line_height)),
        (
            "uint32_t bottom_margin;",
            offset_of!(Settings, bottom_margin),
        ),
        ("uint32_t outline;", offset_of!(Settings, outline)),
        ("uint32_t alignment;", offset_of!(Settings, alignment)),
        ("uint32_t glyph_mode;", offset_of!(Settings, glyph_mode)),
        ("uint32_t side_margin;", offset_of!(Settings, side_margin)),
        ("uint32_t slant;", offset_of!(Settings, slant)),
        ("uint32_t outline_cap;", offset_of!(Settings, outline_cap)),
    ];
    let header = read(HEADER);
    let declared = declared(&header, "typedef struct {", "} captions_settings;");
    assert_eq!(declared, fields.map(|(field, _)| field));
    let offsets = [0, 4, 8, 12, 16, 20, 24, 28, 32, 36, 40, 44];
    assert_eq!(fields.map(|(_, offset)| offset), offsets);
    assert_eq!(size_of::<Settings>(), 48);
}

const COUNT: &str = "uint32_t count;";
const ENDS: &str = "uint32_t ends[CAPTIONS_STRIPES_MAX];";
const COUNTERS: &str = "uint32_t counters[CAPTIONS_STRIPES_MAX];";

#[test]
fn stripes_have_the_fields_of_the_wrapper_s() {
    let offsets = [offset_of!(Stripes, count), offset_of!(Stripes, ends)];
    let header = read(HEADER);
    let declared = declared(&header, "typedef struct {", "} captions_stripes;");
    assert_eq!(declared, [COUNT, ENDS]);
    assert_eq!(offsets, [0, 4]);
    assert_eq!(size_of::<Stripes>(), 260);
}

#[test]
fn a_record_has_the_fields_of_the_wrapper_s() {
    let offsets = [
        offset_of!(Record, count),
        offset_of!(Record, ends),
        offset_of!(Record, counters),
    ];
    let header = read(HEADER);
    let declared = declared(&header, "typedef struct {", "} captions_record;");
    assert_eq!(declared, [COUNT, ENDS, COUNTERS]);
    assert_eq!(offsets, [0, 4, 260]);
    assert_eq!([size_of::<Record>(), RECORD_BYTES], [516; 2]);
}

#[test]
fn usual_settings_are_the_wrapper_s() {
    let header = read(HEADER);
    let usual = captions::Settings::new(7, 9);
    let color = |color| format!("0x{:08X}u", u32::from_be_bytes(color));
    let due = [
        "captions_settings usual;".to_string(),
        "usual.width = width;".to_string(),
        "usual.height = height;".to_string(),
        format!("usual.default_color = {};", color(usual.default_color)),
        format!("usual.outline_color = {};", color(usual.outline_color)),
        format!("usual.line_height = {};", usual.line_height_px),
        format!("usual.bottom_margin = {};", usual.bottom_margin_px),
        format!("usual.outline = {};", usual.outline_px),
        "usual.alignment = CAPTIONS_ALIGN_CENTER;".to_string(),
        "usual.glyph_mode = CAPTIONS_GLYPHS_KEPT;".to_string(),
        format!("usual.side_margin = {};", usual.side_margin_px),
        format!("usual.slant = {};", usual.slant),
        format!("usual.outline_cap = {};", usual.outline_cap_px),
    ];
    let declared = declared(&header, "uint32_t height)\n{", "return usual;");
    assert_eq!(declared, due);
    assert_eq!([usual.width, usual.height], [7, 9]);
    assert_eq!(usual.align, Align::Center);
    assert_eq!(usual.glyph_mode, GlyphMode::Kept);
    // Document 02, S-10: what they were while they were fixed.
    let fixed = [usual.side_margin_px, usual.slant, usual.outline_cap_px];
    assert_eq!(fixed, [8, 2, 2]);
}

/// A name as C has it: `NotAScalar` is `NOT_A_SCALAR`, and `Letter1` is `LETTER_1`.
fn name_in_c(name: &str) -> String {
    let parted = name.chars().enumerate().map(|(place, letter)| {
        let begins = letter.is_ascii_uppercase() || letter.is_ascii_digit();
        let mark = if begins && place > 0 { "_" } else { "" };
        format!("{mark}{}", letter.to_ascii_uppercase())
    });
    parted.collect()
}

/// What the header names in an enum.
fn named<'a>(header: &'a str, name: &str) -> Vec<&'a str> {
    let (_, rest) = header
        .split_once(&format!("enum {name} {{"))
        .unwrap_or_else(|| panic!("no `{name}`"));
    let lines = rest.lines().map(str::trim);
    let inside = lines.take_while(|line| *line != "};");
    let code = inside.filter(|line| line.starts_with("CAPTIONS_"));
    code.filter_map(|line| line.split([',', '/']).next())
        .map(str::trim)
        .collect()
}

#[test]
fn the_header_has_the_names_of_the_wrapper() {
    let header = read(HEADER);
    let causes = Cause::ALL.map(|cause| {
        let name = name_in_c(&format!("{cause:?}"));
        format!("CAPTIONS_{name} = {}", cause.number())
    });
    assert_eq!(named(&header, "captions_refusal"), causes);
    let commands = captions::Command::ALL.map(|command| {
        let name = name_in_c(&format!("{command:?}"));
        format!("CAPTIONS_{name} = 0x{:02X}", command.byte())
    });
    assert_eq!(named(&header, "captions_command"), commands);
}

#[test]
fn the_header_has_the_numbers_of_the_wrapper() {
    let header = read(HEADER);
    let numbers = [
        ("#define CAPTIONS_VERSION", 5),
        ("#define CAPTIONS_TAPE_MAX", TAPE_MAX as u32),
        ("#define CAPTIONS_WORKSPACE_MIN", WORKSPACE_BYTES as u32),
        ("#define CAPTIONS_SIDE_MAX", SIDE_MAX),
        ("#define CAPTIONS_LINE_HEIGHT_MAX", LINE_HEIGHT_MAX),
        ("#define CAPTIONS_SIDE_MARGIN_MAX", SIDE_MARGIN_MAX),
        ("#define CAPTIONS_SLANT_MAX", SLANT_MAX),
        ("#define CAPTIONS_OUTLINE_CAP_MAX", OUTLINE_CAP_MAX),
        ("#define CAPTIONS_COLUMNS_MAX", COLUMNS_MAX),
        ("#define CAPTIONS_LETTERS_MAX", LETTERS_MAX as u32),
        ("#define CAPTIONS_STRIPES_MAX", STRIPES_MAX),
        ("CAPTIONS_ALIGN_CENTER =", Align::Center as u32),
        ("CAPTIONS_ALIGN_LEFT =", Align::Left as u32),
        ("CAPTIONS_ALIGN_START =", Align::Start as u32),
        ("CAPTIONS_ALIGN_RIGHT =", Align::Right as u32),
        ("CAPTIONS_ALIGN_END =", Align::End as u32),
        ("CAPTIONS_GLYPHS_KEPT =", GlyphMode::Kept as u32),
        ("CAPTIONS_GLYPHS_REPLACED =", GlyphMode::Replaced as u32),
    ];
    for (name, number) in numbers {
        let line = header
            .lines()
            .find_map(|line| line.trim().strip_prefix(name));
        let line = line.unwrap_or_else(|| panic!("no `{name}`"));
        let value = line.trim().split([' ', ',']).next();
        assert_eq!(value, Some(number.to_string().as_str()), "{name}");
    }
}
