//! What stands in more than one place says the same in each: the table of refusals, the definitions
//! that docs/DEFINITIONS.md quotes, and how many functions docs/TRUSTED.md says have no `ensures`.

use std::fs;
use std::path::{Path, PathBuf};

fn at(file: &str) -> PathBuf {
    Path::new(env!("CARGO_MANIFEST_DIR"))
        .join("../..")
        .join(file)
}

fn read(file: &str) -> String {
    fs::read_to_string(at(file)).unwrap_or_else(|error| panic!("{file}: {error}"))
}

/// The first page of the deposit: its words are the ones that the others repeat.
const DEPOSIT: &str = "docs/DEPOSIT.md";
const README: &str = "README.md";
const HEADER: &str = "include/captions.h";

/// Words with one space between them, as a text has them that is broken into lines elsewhere.
fn unbroken(text: &str) -> String {
    text.split_whitespace().collect::<Vec<&str>>().join(" ")
}

/// A refusal, as a table has it.
#[derive(Debug, PartialEq)]
struct Row {
    number: u32,
    because: String,
    place: String,
}

/// The rows of a page's tables that begin with a number.
fn table(text: &str) -> Vec<Row> {
    let row = |line: &str| {
        let mut cells = line.strip_prefix('|')?.split('|').map(str::trim);
        let number = cells.next()?.parse().ok()?;
        let mut words = || cells.next().unwrap_or_default().to_string();
        Some(Row {
            number,
            because: words(),
            place: words(),
        })
    };
    text.lines().filter_map(row).collect()
}

/// What the header says of each refusal: its number, and the comment before it.
fn listed(header: &str) -> Vec<(u32, String)> {
    let (_, rest) = header
        .split_once("enum captions_refusal {")
        .expect("the header has the refusals");
    let (inside, _) = rest.split_once("};").expect("the list ends");
    let entry = |entry: &str| {
        let (comment, rest) = entry.split_once("*/").expect("a comment ends");
        let (_, number) = rest.split_once('=').expect("a name has a number");
        let number = number.trim().trim_end_matches(',').parse();
        (number.expect("the number is decimal"), unbroken(comment))
    };
    inside.split("/*").skip(1).map(entry).collect()
}

/// A row as a comment of the header begins, which has no sign beyond ASCII.
fn sentence(row: &Row) -> String {
    let because = row.because.replace('·', "*");
    let (first, rest) = because.split_at(1);
    let place = match row.place.as_str() {
        "" => String::new(),
        place => format!(" Place: {place}."),
    };
    format!("{}{rest}.{place}", first.to_uppercase())
}

#[test]
fn the_tables_of_refusals() {
    let rows = table(&read(DEPOSIT));
    let numbers: Vec<u32> = rows.iter().map(|row| row.number).collect();
    assert_eq!(numbers, Vec::from_iter(1..=14));
    assert!(rows.iter().all(|row| !row.because.is_empty()));
    assert_eq!(table(&read(README)), rows, "{README}");
}

#[test]
fn the_refusals_of_the_header() {
    let rows = table(&read(DEPOSIT));
    let listed = listed(&read(HEADER));
    assert_eq!(listed.len(), rows.len());
    for (row, (number, comment)) in rows.iter().zip(&listed) {
        assert_eq!(*number, row.number);
        // It may say more, behind these words.
        let due = sentence(row);
        let more = comment.strip_prefix(&due);
        assert!(
            more.is_some_and(|more| more.is_empty() || more.starts_with(' ')),
            "{HEADER} says of {number}: {comment}\n{DEPOSIT} says: {due}"
        );
    }
}

/// What a page says of the order in which refusals are looked for.
fn order(file: &str) -> String {
    let text = read(file);
    let lines = text
        .lines()
        .map(|line| line.strip_prefix(" *").unwrap_or(line));
    let text = unbroken(&lines.collect::<Vec<&str>>().join("\n"));
    let [_, behind] = text
        .split("They are looked for in the order ")
        .collect::<Vec<&str>>()[..]
    else {
        panic!("{file} says once in which order refusals are looked for");
    };
    let (order, _) = behind
        .split_once(" is the answer")
        .unwrap_or_else(|| panic!("{file} says which refusal is the answer"));
    order.to_string()
}

#[test]
fn the_order_of_refusals() {
    let due = order(DEPOSIT);
    let words = due.split(|sign: char| !sign.is_ascii_digit());
    let numbers: Vec<u32> = words.filter_map(|word| word.parse().ok()).collect();
    assert_eq!(numbers, [8, 9, 10, 11, 13, 1, 7, 5, 2, 4, 6, 3, 14, 12]);
    for file in [README, HEADER] {
        assert_eq!(order(file), due, "{file}");
    }
}

/// The files that docs/DEFINITIONS.md quotes from, and what it has to quote.
const SPECS: [&str; 7] = [
    "crates/font/specs/Upward.antt",
    "crates/compositor/specs/Replaced.antt",
    "crates/compositor/specs/Inkless.antt",
    "crates/compositor/specs/House.antt",
    "crates/job/specs/History.antt",
    "crates/job/specs/Ends.antt",
    "crates/captions/specs/HistoryInC.antt",
];
const QUOTED: [&str; 15] = [
    "DrawnUpward",
    "RowsFromTheBottom",
    "DrawnReplaced",
    "ReplacedFirst",
    "InkAlone",
    "InklessLeftOut",
    "HouseOf",
    "HouseSettings",
    "PartlyDrawn",
    "Demand3",
    "Possible",
    "EqualStripes",
    "StripesByEnds",
    "HistoryInC",
    "Demand3InC",
];

/// The name that a definition's first line gives it.
fn name<'a>(definition: &[&'a str]) -> &'a str {
    let first = definition.first().copied().unwrap_or_default();
    let mut words = first.split_whitespace();
    let name = words.find(|word| !["pub", "record", "data"].contains(word));
    name.unwrap_or_default()
}

/// Lines that stand together, with none blank between them.
fn paragraphs<'a>(lines: impl Iterator<Item = &'a str>) -> Vec<Vec<&'a str>> {
    let mut paragraphs = vec![Vec::new()];
    for line in lines {
        match paragraphs.last_mut() {
            Some(last) if !line.trim().is_empty() => last.push(line),
            _ => paragraphs.push(Vec::new()),
        }
    }
    paragraphs.retain(|paragraph| !paragraph.is_empty());
    paragraphs
}

/// The definitions of a file, each without its comment and without the line that only gives its type.
fn definitions(specs: &str) -> Vec<Vec<&str>> {
    let passed = |line: &&str| {
        let line = line.trim_start();
        let type_alone = line.starts_with("abbrev pub ") || line.starts_with("unfoldable pub ");
        !type_alone && !line.starts_with("--")
    };
    paragraphs(specs.lines().filter(passed))
}

/// The definitions that a page has between fences; those of a shell's commands have a word behind
/// them.
fn quotations(page: &str) -> Vec<Vec<&str>> {
    let mut fence = None;
    let mut quoted = Vec::new();
    for line in page.lines() {
        match (line.strip_prefix("```"), fence) {
            (Some(word), None) => fence = Some(word),
            (Some(_), Some(_)) => {
                fence = None;
                quoted.push("");
            }
            (None, Some("")) => quoted.push(line),
            _ => {}
        }
    }
    paragraphs(quoted.into_iter())
}

#[test]
fn the_definitions_that_are_quoted() {
    let page = read("docs/DEFINITIONS.md");
    let specs = SPECS.map(read);
    let there: Vec<Vec<&str>> = specs.iter().flat_map(|text| definitions(text)).collect();
    let quoted = quotations(&page);
    for due in QUOTED {
        assert!(
            quoted.iter().any(|lines| name(lines) == due),
            "{due} is not quoted"
        );
    }
    for lines in quoted {
        let name = name(&lines);
        let due = there
            .iter()
            .find(|definition| self::name(definition) == name);
        let due =
            due.unwrap_or_else(|| panic!("{name} is quoted, and is no definition of {SPECS:?}"));
        for (line, due) in lines.iter().zip(due) {
            assert_eq!(line, due, "{name}");
        }
        assert_eq!(lines.len(), due.len(), "the lines of {name}");
    }
}

/// The libraries, of which every function has an `ensures`.
const LIBRARIES: [&str; 8] = [
    "font",
    "font_c",
    "tape",
    "tape_c",
    "wrap",
    "compositor",
    "job",
    "captions",
];

/// A crate, how many functions it has, and how many of them have no `ensures`.
type Counted = (String, [usize; 2]);

fn counted(name: &str) -> Counted {
    let folder = format!("crates/{name}/src");
    let entries = fs::read_dir(at(&folder)).unwrap_or_else(|error| panic!("{folder}: {error}"));
    let files = entries.map(|entry| entry.expect("the folder can be read").file_name());
    let mut counts = [0, 0];
    for file in files {
        let text = read(&format!("{folder}/{}", file.display()));
        let code = text.lines().filter_map(|line| line.split("//").next());
        let code = code.collect::<Vec<&str>>().join("\n");
        for function in code.split("fn ").skip(1) {
            counts[0] += 1;
            let mut words = function.split_whitespace();
            counts[1] += usize::from(!words.any(|word| word == "ensures"));
        }
    }
    (name.to_string(), counts)
}

/// The rows of a page's tables that are a crate's name and two numbers.
fn told(page: &str) -> Vec<Counted> {
    let row = |line: &str| {
        let mut cells = line.strip_prefix("| `")?.split('|').map(str::trim);
        let name = cells.next()?.trim_end_matches('`').to_string();
        let mut number = || cells.next()?.parse().ok();
        Some((name, [number()?, number()?]))
    };
    page.lines().filter_map(row).collect()
}

#[test]
fn the_functions_without_an_ensures() {
    for library in LIBRARIES {
        let (_, [functions, without]) = counted(library);
        assert!(functions > 0 && without == 0, "{library}: {without}");
    }
    let crates = read("crates.txt");
    let names = crates.lines().filter(|line| !line.starts_with('#'));
    let names = names.filter_map(|line| line.split([':', ' ']).next());
    let others = names.filter(|name| !LIBRARIES.contains(name));
    let mut due: Vec<Counted> = others.map(counted).collect();
    let mut told = told(&read("docs/TRUSTED.md"));
    due.sort();
    told.sort();
    assert_eq!(told, due);
}
