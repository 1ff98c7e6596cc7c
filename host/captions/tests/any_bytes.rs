//! Any bytes as a tape, with any settings: no call panics, and Draw and a job agree.

mod common;

use captions::{Align, GlyphMode, Job, Result, Settings, Stripes, Workspace, draw, wrap};
use common::{Random, painted, rising_ends};

const CASES: u64 = 4_000;
const AFTER: usize = 4;

/// Mostly small pictures; now and then a number is any.
fn settings(random: &mut Random) -> Settings {
    let mut number = |usual: u32| match random.one_in(40) {
        true => random.next() as u32,
        false => random.under(usual),
    };
    let (width, height) = (number(80), number(60));
    let [line_height_px, bottom_margin_px, outline_px] = [number(40), number(40), number(6)];
    let [side_margin_px, slant, outline_cap_px] = [number(40), number(9), number(5)];
    let aligns = [
        Align::Center,
        Align::Left,
        Align::Start,
        Align::Right,
        Align::End,
    ];
    Settings {
        width,
        height,
        default_color: random.color(),
        outline_color: random.color(),
        line_height_px,
        bottom_margin_px,
        outline_px,
        align: aligns[random.under(5) as usize],
        glyph_mode: [GlyphMode::Kept, GlyphMode::Replaced][random.under(2) as usize],
        side_margin_px,
        slant,
        outline_cap_px,
    }
}

/// Mostly letters and lists that end; now and then any command, or any byte.
fn tape(random: &mut Random) -> Vec<u8> {
    let mut tape = Vec::new();
    let mut depth = 0;
    for _ in 0..random.under(40) {
        match random.under(120) {
            0 => tape.push(random.next() as u8),
            1 | 2 => tape.push(random.under(12) as u8),
            3..15 if depth > 0 => {
                depth -= 1;
                tape.push(0);
            }
            15..30 => {
                depth += 1;
                tape.extend(opener(random));
            }
            30..40 => tape.push([1, 5, 0x0B][random.under(3) as usize]),
            _ => tape.extend([2, random.next() as u8]),
        }
    }
    tape.resize(tape.len() + depth, 0);
    tape
}

fn opener(random: &mut Random) -> Vec<u8> {
    match random.under(5) {
        0 => vec![6],
        1 => vec![7],
        2 => vec![
            8,
            random.next() as u8,
            random.next() as u8,
            random.next() as u8,
        ],
        3 => vec![9, 2, random.next() as u8, 0],
        _ => vec![0x0A],
    }
}

/// What a finished job answers and leaves, stripe after stripe with some budgets.
fn in_stripes(
    random: &mut Random,
    settings: &Settings,
    tape: &[u8],
    picture: &mut [u8],
) -> Result<u32> {
    let least = settings.height.div_ceil(64).max(1);
    let stripes = match random.one_in(2) {
        true => Stripes::of_height(settings.height, least + random.under(30))?,
        false => Stripes::new(settings.height, &rising_ends(random, settings.height))?,
    };
    let workspace = &mut Workspace::new();
    let mut job = Job::open(settings, tape, workspace, picture, &stripes)?;
    for stripe in 0..job.stripes() {
        while job.done(stripe) < job.total() {
            let before = job.done(stripe);
            let done = job.work(workspace, stripe, 1 + random.under(200))?;
            assert!(done > 0);
            assert_eq!(job.done(stripe), before + done);
        }
    }
    Ok(job.total())
}

#[test]
fn draw_and_a_job_agree_on_any_tape() {
    let (mut accepted, mut refused) = (0, [0; 15]);
    for seed in 0..CASES {
        let random = &mut Random(seed);
        let (settings, tape) = (settings(random), tape(random));
        let mut first = painted(&settings, AFTER);
        if random.one_in(40) {
            first.truncate(first.len() / 2);
        }
        let before = first.clone();
        let mut second = first.clone();
        let answer = draw(&settings, &tape, &mut Workspace::new(), &mut first);
        assert_eq!(
            in_stripes(random, &settings, &tape, &mut second),
            answer,
            "seed {seed}"
        );
        assert_eq!(first, second, "seed {seed}");
        match answer {
            Ok(_) => accepted += 1,
            Err(refusal) => {
                assert_eq!(first, before, "seed {seed}");
                refused[refusal.cause.number() as usize] += 1;
            }
        }
    }
    assert!(
        accepted > CASES / 4,
        "{accepted} accepted, refused by number {refused:?}"
    );
    for number in [1, 2, 3, 7, 8, 9] {
        assert!(
            refused[number] > 0,
            "{accepted} accepted, refused by number {refused:?}"
        );
    }
}

#[test]
fn lines_of_any_tape_are_no_wider_than_the_limit() {
    let mut accepted = 0;
    for seed in 0..CASES {
        let random = &mut Random(seed);
        let tape = tape(random);
        let limit = 1 + random.under(20);
        let Ok(lines) = wrap(&tape, &mut Workspace::new(), limit) else {
            continue;
        };
        accepted += 1;
        assert!(
            lines.iter().all(|line| u32::from(line.columns) <= limit),
            "seed {seed}"
        );
        assert!(
            lines.last().is_none_or(|line| !line.letters.is_empty()),
            "seed {seed}"
        );
        let numbers: Vec<u16> = lines.into_iter().flat_map(|line| line.letters).collect();
        assert!(numbers.is_sorted_by(|a, b| a < b), "seed {seed}");
    }
    assert!(accepted > CASES / 4, "{accepted} accepted");
}
