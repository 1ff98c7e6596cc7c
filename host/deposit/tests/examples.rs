//! The examples of the deposit are what the proved library gives.
//!
//! An example is indented, and begins with a limit, with settings or with stripes of one height. Its
//! lines say what is asked; what comes of it stands behind a comma, or in the lines below, and is made
//! anew here.

use captions::WORKSPACE_BYTES;
use captions::raw::{self, Buffers, Record, Settings, Stripes};
use std::path::Path;

/// The lines of each example, without their indentation.
fn examples(text: &str) -> Vec<Vec<&str>> {
    let mut examples = vec![Vec::new()];
    for line in text.lines() {
        match (line.strip_prefix("    "), examples.last_mut()) {
            (Some(line), Some(example)) => example.push(line),
            _ => examples.push(Vec::new()),
        }
    }
    let asked = |example: &Vec<&str>| {
        let first = example.first().copied().unwrap_or_default();
        let words = ["limit ", "settings ", "equal "];
        words.iter().any(|word| first.starts_with(word))
    };
    examples.retain(asked);
    examples
}

/// What stands behind a word in the lines that begin with it.
fn behind<'a>(example: &[&'a str], word: &str) -> Vec<&'a str> {
    let lines = example.iter().filter_map(|line| line.strip_prefix(word));
    lines.map(str::trim).collect()
}

fn number(word: &str) -> u32 {
    word.parse().expect("a number is decimal")
}

/// What words stand for, so many times where that is said, and then others.
fn repeated<T: Clone>(words: &str, of: impl Fn(&str) -> Vec<T>) -> Vec<T> {
    let one = |words: &str| {
        let (words, times) = words.split_once(", ").unwrap_or((words, "1 times"));
        let things = of(words);
        let times = number(times.trim_end_matches(" times")) as usize;
        (0..times).flat_map(move |_| things.clone())
    };
    words.split(" then ").flat_map(one).collect()
}

fn tape(words: &str) -> Vec<u8> {
    let byte = |word: &str| u8::from_str_radix(word, 16).expect("bytes are hexadecimal");
    repeated(words, |words| words.split_whitespace().map(byte).collect())
}

/// Numbers, of which `A to B` are all from A on up to B.
fn numbers(words: &str) -> Vec<u32> {
    let mut numbers = Vec::new();
    let mut words = words.split_whitespace();
    while let Some(word) = words.next() {
        match (word, numbers.last().copied()) {
            ("to", Some(first)) => {
                let last = words.next().expect("a row of numbers has an end");
                numbers.extend(first + 1..=number(last));
            }
            _ => numbers.push(number(word)),
        }
    }
    numbers
}

/// The same in words, where there are many.
fn in_words(numbers: &[u32]) -> String {
    let is_next = |one: &u32, other: &u32| numbers.len() > MANY && one + 1 == *other;
    let words = numbers.chunk_by(is_next).map(|run| match run {
        [first, _, .., last] => format!(" {first} to {last}"),
        few => few.iter().map(|number| format!(" {number}")).collect(),
    });
    words.collect()
}

/// So many numbers as a struct has, those that are not told 0.
fn filled(told: impl IntoIterator<Item = u32>) -> [u32; 64] {
    let mut told = told.into_iter();
    let filled = std::array::from_fn(|_| told.next().unwrap_or_default());
    assert_eq!(told.next(), None, "there are 64 places");
    filled
}

/// A count, and then ends.
fn stripes(words: &str) -> Stripes {
    let mut numbers = numbers(words).into_iter();
    Stripes {
        count: numbers.next().expect("stripes have a count"),
        ends: filled(numbers),
    }
}

/// The number behind a word, where an example has it.
fn told(example: &[&str], word: &str) -> Option<usize> {
    let lines = behind(example, word);
    lines.first().map(|line| number(line) as usize)
}

/// How long the workspace is: as the example says, or else as it has to be.
fn room(example: &[&str]) -> usize {
    told(example, "room").unwrap_or(WORKSPACE_BYTES)
}

fn settings(words: &str) -> Settings {
    let words: Vec<&str> = words.split(' ').collect();
    let words: [&str; 12] = words.try_into().expect("there are twelve settings");
    let color = |word| u32::from_str_radix(word, 16).expect("a color is hexadecimal");
    Settings {
        width: number(words[0]),
        height: number(words[1]),
        default_color: color(words[2]),
        outline_color: color(words[3]),
        line_height: number(words[4]),
        bottom_margin: number(words[5]),
        outline: number(words[6]),
        alignment: number(words[7]),
        glyph_mode: number(words[8]),
        side_margin: number(words[9]),
        slant: number(words[10]),
        outline_cap: number(words[11]),
    }
}

/// A call's answer: a number behind this word, or the refusal.
fn answer(word: &str, answer: u64) -> String {
    match answer >> 32 {
        0 => format!("{word} {answer}"),
        number => format!("refused {number} at {}", answer as u32),
    }
}

/// The lines that a call of Wrap leaves in its workspace, and the bytes themselves where they are told.
fn lines(example: &[&str], limit: u32) -> String {
    let mut workspace = vec![0; room(example)];
    let tape = tape(&behind(example, "tape").join(" "));
    let wrapped = raw::wrap(&tape, &mut workspace, limit);
    let mut text = answer("lines", wrapped) + "\n";
    if wrapped >> 32 != 0 {
        return text;
    }
    let two = |at: usize| usize::from(u16::from_be_bytes([workspace[at], workspace[at + 1]]));
    let mut at = 4 * wrapped as usize;
    for line in 0..wrapped as usize {
        let (letters, columns) = (two(4 * line), two(4 * line + 2));
        let numbers = (0..letters).map(|letter| format!(" {}", two(at + 2 * letter)));
        text += &format!(
            "columns {columns}, letters{}\n",
            numbers.collect::<String>()
        );
        at += 2 * letters;
    }
    if behind(example, "bytes").is_empty() {
        return text;
    }
    let bytes = workspace[..at].iter().map(|byte| format!(" {byte:02X}"));
    text + &format!("bytes{}\n", bytes.collect::<String>())
}

/// More counters are written as tapes are, and more ends by their first and last.
const MANY: usize = 32;

/// What a record holds before Open writes it.
const ANY: Record = Record {
    count: 7,
    ends: [7; 64],
    counters: [7; 64],
};

/// How many bytes a picture has; refused settings may have more than can be counted.
fn picture_bytes(settings: &Settings) -> usize {
    let [width, height] = [settings.width, settings.height].map(|side| side as usize);
    width.saturating_mul(height).saturating_mul(4)
}

/// A picture that is drawn whole, or in stripes; its buffer held other bytes before.
struct Drawing {
    settings: Settings,
    tape: Vec<u8>,
    room: usize,
    picture: Vec<u8>,
    record: Record,
}

impl Drawing {
    /// Workspace and buffer are as long as the example says, or else as they have to be.
    fn new(example: &[&str]) -> Drawing {
        let settings = settings(behind(example, "settings")[0]);
        Drawing {
            settings,
            tape: tape(&behind(example, "tape").join(" ")),
            room: room(example),
            picture: vec![
                0xaa;
                told(example, "buffer").unwrap_or_else(|| picture_bytes(&settings))
            ],
            record: ANY,
        }
    }

    /// How many bytes the picture has, as far as its buffer has them.
    fn size(&self) -> usize {
        self.picture.len().min(picture_bytes(&self.settings))
    }

    fn call(&mut self, call: impl FnOnce(&Settings, Buffers, &mut Record) -> u64) -> u64 {
        let buffers = Buffers {
            tape: &self.tape,
            workspace: &mut vec![0; self.room],
            picture: &mut self.picture,
        };
        call(&self.settings, buffers, &mut self.record)
    }

    fn draw(&mut self) -> String {
        let drawn = self.call(|settings, buffers, _| raw::draw(settings, buffers));
        answer("strokes", drawn) + "\n"
    }

    fn open(&mut self, words: &str) -> String {
        let stripes = stripes(words);
        let opened =
            self.call(|settings, buffers, record| raw::open(settings, buffers, &stripes, record));
        format!("stripes {words}, {}\n", answer("strokes", opened))
    }

    /// Begins with a record that no Open gave.
    fn set_record(&mut self, words: &str) -> String {
        let (ends, counters) = words.split_once(" counters ").unwrap_or((words, ""));
        let Stripes { count, ends } = stripes(ends);
        self.record = Record {
            count,
            ends,
            counters: filled(repeated(counters, numbers)),
        };
        format!("record {words}\n")
    }

    fn work(&mut self, words: &str) -> String {
        let (asked, room) = words.split_once(" room ").unwrap_or((words, ""));
        let (stripe, budget) = asked
            .split_once(' ')
            .expect("a Work has a stripe and a budget");
        let [stripe, budget] = [stripe, budget].map(number);
        let before = self.room;
        if !room.is_empty() {
            self.room = number(room) as usize;
        }
        let worked = self
            .call(|settings, buffers, record| raw::work(settings, buffers, record, stripe, budget));
        self.room = before;
        format!("work {words}, {}\n", answer("done", worked))
    }

    /// The counters of the stripes that there are, and others up to the last that is not 0.
    fn counters(&self) -> String {
        let Record {
            count, counters, ..
        } = &self.record;
        let stripes = counters.len().min(*count as usize);
        let shown = &counters[..stripes.max(told_places(counters))];
        if shown.len() > MANY {
            let runs = shown.chunk_by(|a, b| a == b);
            let runs = runs.map(|run| match run {
                [one] => one.to_string(),
                run => format!("{}, {} times", run[0], run.len()),
            });
            return format!("counters {}\n", runs.collect::<Vec<_>>().join(" then "));
        }
        let listed: String = shown.iter().map(|counter| format!(" {counter}")).collect();
        format!("counters{listed}\n")
    }

    /// The sum of each of the picture's bytes times its number, counted from 1.
    fn sum(&self) -> String {
        let bytes = (1..).zip(&self.picture[..self.size()]);
        let sum: u64 = bytes.map(|(number, byte)| number * u64::from(*byte)).sum();
        format!("sum {sum}\n")
    }

    /// The record's count, and its ends up to the last that is not 0.
    fn ends(&self) -> String {
        let Record { count, ends, .. } = &self.record;
        format!("ends {count}{}\n", in_words(&ends[..told_places(ends)]))
    }

    /// The bytes after the picture.
    fn rest(&self) -> String {
        let bytes = self.picture[self.size()..].iter();
        let listed: String = bytes.map(|byte| format!(" {byte:02X}")).collect();
        format!("rest{listed}\n")
    }

    /// A sign for each pixel.
    fn shown(&self, signs: &[&str]) -> String {
        let words: Vec<&str> = signs.iter().flat_map(|line| line.split(' ')).collect();
        let sign = |pixel: &[u8]| {
            let bytes = pixel.iter().map(|byte| format!("{byte:02X}"));
            let pixel: String = bytes.collect();
            let known = words.chunks(2).find(|pair| pair[1] == pixel);
            let known = known.unwrap_or_else(|| panic!("{words:?} have none for {pixel}"));
            known[0]
        };
        let rows = self.picture[..self.size()].chunks(4 * self.settings.width as usize);
        let shown = rows.map(|row| row.chunks(4).map(sign).collect::<String>() + "\n");
        shown.collect()
    }
}

/// How many places there are up to the last that is not 0.
fn told_places(places: &[u32]) -> usize {
    let last = places.iter().rposition(|number| *number != 0);
    last.map_or(0, |last| last + 1)
}

/// The ends of stripes of one height: how many they are, and as many as have a place.
fn equal(words: &str) -> String {
    let [stripe_height, height] = numbers(words)[..] else {
        panic!("a stripe has a height, and a picture");
    };
    let Stripes { count, ends } = Stripes::of_height(height, stripe_height);
    let shown = &ends[..ends.len().min(count as usize)];
    format!("equal {words}, ends {count}{}\n", in_words(shown))
}

/// What is asked in a line, without what comes of it.
fn question(line: &str) -> &str {
    line.split(',').next().unwrap_or_default()
}

/// What comes of a picture that is asked for, whole or in stripes.
fn drawn(example: &[&str]) -> String {
    let mut drawing = Drawing::new(example);
    let works = behind(example, "work");
    let begun = match (
        &behind(example, "stripes")[..],
        &behind(example, "record")[..],
    ) {
        ([words], _) => drawing.open(question(words)),
        (_, [record]) => drawing.set_record(record),
        _ => drawing.draw(),
    };
    let mut text = begun;
    for work in &works {
        text += &drawing.work(question(work));
    }
    if !works.is_empty() {
        text += &drawing.counters();
    }
    let is_told = |word| !behind(example, word).is_empty();
    if is_told("ends") {
        text += &drawing.ends();
    }
    if is_told("sum") {
        text += &drawing.sum();
    }
    if is_told("rest") {
        text += &drawing.rest();
    }
    match &behind(example, "signs")[..] {
        [] => text,
        signs => text + &drawing.shown(signs),
    }
}

/// The example with what comes of it made anew.
fn answered(example: &[&str]) -> String {
    let asked = ["limit", "settings", "tape", "signs", "room", "buffer"];
    let is_asked = |line: &&&str| asked.contains(&line.split(' ').next().unwrap_or(""));
    let lines_asked = example.iter().filter(is_asked);
    let text = lines_asked.fold(String::new(), |text, line| text + line + "\n");
    text + &match (&behind(example, "limit")[..], &behind(example, "equal")[..]) {
        ([limit], _) => lines(example, number(limit)),
        (_, []) => drawn(example),
        (_, words) => words.iter().map(|words| equal(question(words))).collect(),
    }
}

#[test]
fn examples_are_what_the_library_gives() {
    let file = Path::new(env!("CARGO_MANIFEST_DIR")).join("../../deposit/examples.txt");
    let whole = std::fs::read_to_string(file).expect("the examples are there");
    let (_, text) = whole
        .split_once("\nLines\n")
        .expect("they begin behind how they are written");
    let examples = examples(text);
    let said = format!("There are {} examples.", examples.len());
    assert!(whole.contains(&said), "it should say: {said}");
    for example in examples {
        let there = example
            .iter()
            .fold(String::new(), |text, line| text + line + "\n");
        let due = answered(&example);
        assert!(due == there, "an example should be\n{due}");
    }
}
