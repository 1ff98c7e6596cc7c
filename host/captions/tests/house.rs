//! The house settings, side margin, slant and the outline's cap: pictures and strokes held to what
//! document 02 says of them (S-10), pixel by pixel.

mod common;

use captions::{Align, Job, Settings, Workspace, draw};
use common::{equal, painted, plain, tape};
use std::collections::{BTreeMap, BTreeSet};

/// Columns and rows, counted from the picture's corner.
type Pixels = BTreeSet<(i64, i64)>;

fn drawn(settings: &Settings, tape: &[u8]) -> Vec<u8> {
    let mut picture = painted(settings, 0);
    draw(settings, tape, &mut Workspace::new(), &mut picture).expect("it is admitted");
    picture
}

/// The pixels that are not clear, with their colors.
fn colors(settings: &Settings, picture: &[u8]) -> BTreeMap<(i64, i64), [u8; 4]> {
    let (pixels, _) = picture.as_chunks::<4>();
    let width = i64::from(settings.width);
    let places = (0..).map(|at| (at % width, at / width));
    let lit = places.zip(pixels).filter(|(_, pixel)| pixel[3] != 0);
    lit.map(|(place, pixel)| (place, *pixel)).collect()
}

fn lit(settings: &Settings, tape: &[u8]) -> Pixels {
    colors(settings, &drawn(settings, tape))
        .into_keys()
        .collect()
}

/// Pixels that are moved to the right, each row by so many columns: those that are still on the
/// picture.
fn moved(settings: &Settings, pixels: &Pixels, by: impl Fn(i64) -> i64) -> Pixels {
    let moved = pixels.iter().map(|&(column, row)| (column + by(row), row));
    let on_picture = 0..i64::from(settings.width);
    moved
        .filter(|(column, _)| on_picture.contains(column))
        .collect()
}

fn italic(tape: &[u8]) -> Vec<u8> {
    [&[7], tape, &[0]].concat()
}

fn bold(tape: &[u8]) -> Vec<u8> {
    [&[6], tape, &[0]].concat()
}

fn with_margin(side_margin_px: u32, align: Align, settings: Settings) -> Settings {
    Settings {
        side_margin_px,
        align,
        ..settings
    }
}

/// Left and start move to the right by as much as the margin grows, right and end to the left.
#[test]
fn a_line_moves_with_its_side_margin() {
    let settings = Settings {
        outline_px: 2,
        ..plain(96, 24)
    };
    let cue = [italic(&tape("g")), tape("AW")].concat();
    let sides = [
        (Align::Left, 1),
        (Align::Start, 1),
        (Align::Right, -1),
        (Align::End, -1),
        (Align::Center, 0),
    ];
    for (align, direction) in sides {
        let before = lit(&with_margin(8, align, settings), &cue);
        for margin in [0, 1, 7, 8, 9, 40, 71, 72, 80, 254, 255] {
            let by = direction * (i64::from(margin) - 8);
            let due = moved(&settings, &before, |_| by);
            let there = lit(&with_margin(margin, align, settings), &cue);
            assert!(there == due, "{align:?}, margin {margin}");
        }
    }
}

/// A width of 16 has two columns, whatever the margin: A and B stand on one line.
#[test]
fn a_side_margin_takes_no_column() {
    let cue = tape("AB");
    for align in [Align::Center, Align::Left, Align::Right] {
        for margin in [0, 4, 16, 255] {
            let settings = with_margin(margin, align, plain(16, 32));
            assert!(lit(&settings, &cue).iter().all(|(_, row)| *row >= 16));
            let mut picture = settings.new_picture();
            let strokes = draw(&settings, &cue, &mut Workspace::new(), &mut picture);
            assert_eq!(strokes, Ok(2));
        }
        let seen = lit(&with_margin(0, align, plain(16, 32)), &cue);
        assert!(!seen.is_empty());
    }
}

/// A picture's rows, as signs.
fn signs(settings: &Settings, tape: &[u8]) -> Vec<String> {
    let lit = lit(settings, tape);
    let sign = |column, row| {
        if lit.contains(&(column, row)) {
            '#'
        } else {
            '.'
        }
    };
    let row = |row| (0..i64::from(settings.width)).map(move |column| sign(column, row));
    (0..i64::from(settings.height))
        .map(|at| row(at).collect())
        .collect()
}

#[test]
fn a_line_at_the_right_may_start_left_of_the_picture() {
    let settings = with_margin(1, Align::Right, plain(8, 16));
    let due = [
        "........", "..##....", ".####...", "##..##..", "##..##..", "######..", "##..##..",
        "##..##..", "##..##..", "........", "........", "........", "........", "........",
        "........", "........",
    ];
    assert_eq!(signs(&settings, &tape("A")), due);
    // Its left leg goes first, and then all of it.
    let further = |margin| signs(&with_margin(margin, Align::End, settings), &tape("A"));
    assert_eq!(
        further(4)[2..6],
        ["##......", ".##.....", ".##.....", "###....."]
    );
    assert_eq!(
        further(6)[2..6],
        ["........", "#.......", "#.......", "#......."]
    );
    assert_eq!(further(7), ["........"; 16]);
}

/// How many columns italic moves each row of a cell, at the slants 0 to 8.
const OFFSETS: [[i64; 16]; 9] = [
    [0; 16],
    [1, 1, 1, 1, 1, 0, 0, 0, 0, 0, 0, 0, 0, 0, 0, 0],
    [2, 1, 1, 1, 1, 1, 1, 1, 1, 0, 0, 0, 0, 0, 0, 0],
    [2, 2, 2, 2, 2, 1, 1, 1, 1, 1, 0, 0, 0, 0, 0, -1],
    [3, 3, 3, 2, 2, 2, 2, 1, 1, 1, 1, 0, 0, 0, -1, -1],
    [4, 3, 3, 3, 3, 2, 2, 2, 1, 1, 1, 0, 0, 0, -1, -1],
    [5, 4, 4, 3, 3, 3, 2, 2, 2, 1, 1, 0, 0, 0, -1, -1],
    [5, 5, 4, 4, 4, 3, 3, 2, 2, 1, 1, 0, 0, 0, -1, -1],
    [6, 6, 5, 5, 4, 4, 3, 3, 2, 2, 1, 1, 0, -1, -1, -2],
];

/// Every glyph, in both fonts, with the box, of which row 13 has ink, at the end.
#[test]
fn italic_moves_each_row_by_the_slant() {
    let settings = plain(32, 16); // a cell's rows are the picture's
    let mut below = 0;
    for code in 0..=0x100 {
        let letter = tape(&char::from_u32(code).expect("a letter").to_string());
        for upright in [letter.clone(), bold(&letter)] {
            let before = lit(&settings, &upright);
            below += before.iter().filter(|(_, row)| *row == 13).count();
            for (slant, offsets) in (0..).zip(OFFSETS) {
                let leaning = Settings { slant, ..settings };
                assert!(lit(&leaning, &upright) == before, "{code:X} at {slant}");
                let due = moved(&settings, &before, |row| offsets[row as usize]);
                let there = lit(&leaning, &italic(&upright));
                assert!(there == due, "{code:X} in italic at {slant}");
            }
        }
    }
    assert!(below > 0);
}

/// Its outline leans with a letter, and so do letters beside each other.
#[test]
fn outlines_lean_too() {
    let settings = Settings {
        slant: 8,
        outline_px: 4,
        outline_cap_px: 4,
        side_margin_px: 20,
        bottom_margin_px: 9,
        ..plain(64, 32)
    };
    let cue = italic(&tape(",\u{100}"));
    let bare = Settings {
        outline_px: 0,
        ..settings
    };
    let ink = lit(&bare, &cue);
    assert!(lit(&settings, &cue) == &ink | &ring(&ink, 4));
}

#[test]
fn slant_0_is_upright_and_a_run_of_its_own() {
    let settings = Settings {
        slant: 0,
        align: Align::Center,
        ..plain(24, 32)
    };
    let leaning = [tape("X A"), italic(&tape("B"))].concat();
    // Three columns: the word AB would stand on the second line.
    assert!(drawn(&settings, &leaning) == drawn(&settings, &tape("X A\nB")));
    assert!(drawn(&settings, &tape("X AB")) == drawn(&settings, &tape("X\nAB")));
    assert!(drawn(&settings, &leaning) != drawn(&settings, &tape("X AB")));
}

/// The displacements of an outline, in order: rows from the top, in each columns from the left.
fn displacements(o: i64) -> Vec<(i64, i64)> {
    let rows = (-o..=o).flat_map(|down| (-o..=o).map(move |right| (right, down)));
    let ring = |(right, down): &(i64, i64)| o > 0 && right.abs().max(down.abs()) == o;
    rows.filter(ring).collect()
}

/// What an outline's strokes cover.
fn ring(ink: &Pixels, o: i64) -> Pixels {
    let at = |(right, down): (i64, i64)| {
        let moved = ink
            .iter()
            .map(move |(column, row)| (column + right, row + down));
        moved.collect::<Pixels>()
    };
    displacements(o).into_iter().flat_map(at).collect()
}

const OUTLINES: [u32; 8] = [0, 1, 2, 3, 4, 5, 9, u32::MAX];

/// A picture in whose middle a letter has room for its outline.
fn outlined(outline_px: u32, outline_cap_px: u32) -> Settings {
    Settings {
        outline_px,
        outline_cap_px,
        default_color: [250, 240, 30, 255],
        outline_color: [10, 20, 130, 255],
        bottom_margin_px: 10,
        ..plain(32, 40)
    }
}

#[test]
fn an_outline_lies_at_the_distance_that_its_cap_leaves() {
    for letter in [".", "g", "\u{100}"] {
        let cue = tape(letter);
        let ink = lit(&outlined(0, 2), &cue);
        for outline in OUTLINES {
            for cap in 0..=4 {
                let settings = outlined(outline, cap);
                let own = ink.iter().map(|place| (*place, settings.default_color));
                let ring = ring(&ink, outline.min(cap).into());
                let around = ring.iter().map(|place| (*place, settings.outline_color));
                let due: BTreeMap<_, _> = around.chain(own).collect();
                let there = colors(&settings, &drawn(&settings, &cue));
                assert!(there == due, "{letter}, outline {outline}, cap {cap}");
            }
        }
    }
}

#[test]
fn strokes_are_counted_by_the_cap() {
    let cue = tape("a b\u{AD}c"); // three letters with ink
    for outline in OUTLINES {
        for cap in 0..=4 {
            let settings = outlined(outline, cap);
            let due = 3 * (1 + 8 * outline.min(cap));
            let workspace = &mut Workspace::new();
            let mut picture = settings.new_picture();
            assert_eq!(draw(&settings, &cue, workspace, &mut picture), Ok(due));
            let stripes = equal(&settings, 9);
            let job = Job::open(&settings, &cue, workspace, &mut picture, &stripes);
            assert_eq!(job.map(|job| job.total()), Ok(due));
        }
    }
}

/// A picture does not tell an outline from its cap.
#[test]
fn an_outline_over_its_cap_counts_as_the_cap() {
    let picture = |outline, cap| drawn(&outlined(outline, cap), &tape("ag"));
    assert!(picture(9, 3) == picture(3, 4));
    assert!(picture(9, 3) != picture(4, 4));
    assert!(picture(9, 3) != picture(2, 4));
    assert!(picture(9, 0) == picture(0, 4));
    assert!(picture(9, 2) == picture(2, 2));
}

/// Stroke by stroke, each outline goes around its letter in the one order.
#[test]
fn the_strokes_of_an_outline_have_one_order() {
    let cue = tape(".");
    let ink = lit(&outlined(0, 4), &cue);
    for cap in 0..=4 {
        let settings = outlined(u32::MAX, cap);
        let workspace = &mut Workspace::new();
        let mut picture = settings.new_picture();
        let stripes = equal(&settings, 40);
        let mut job = Job::open(&settings, &cue, workspace, &mut picture, &stripes).unwrap();
        let mut due = BTreeMap::new();
        for (right, down) in displacements(cap.into()) {
            assert_eq!(job.work(workspace, 0, 1), Ok(1));
            let covered = ink.iter().map(|(column, row)| (column + right, row + down));
            due.extend(covered.map(|place| (place, settings.outline_color)));
            assert!(colors(&settings, job.picture()) == due, "cap {cap}");
        }
        assert_eq!(job.work(workspace, 0, 9), Ok(1));
        due.extend(ink.iter().map(|place| (*place, settings.default_color)));
        assert!(colors(&settings, job.picture()) == due, "cap {cap}");
    }
}

/// Stripes that cut letters, outlines and lines, and colors that show in which order they are laid.
fn striped() -> (Settings, Vec<u8>, u32) {
    let settings = Settings {
        outline_px: 7,
        align: Align::End,
        default_color: [90, 200, 10, 140],
        outline_color: [200, 30, 60, 90],
        side_margin_px: 30,
        slant: 8,
        outline_cap_px: 4,
        ..plain(72, 41)
    };
    let words = [italic(&tape(",g\u{100}")), tape("\n"), bold(&tape("y q"))].concat();
    (settings, words, 5 * 33)
}

#[test]
fn a_job_in_stripes_ends_as_draw() {
    let (settings, cue, total) = striped();
    let due = drawn(&settings, &cue);
    for (stripe_height, budget) in [(1, 50), (3, 7), (8, 1), (8, 32), (9, 33), (41, 34)] {
        let workspace = &mut Workspace::new();
        let mut picture = painted(&settings, 0);
        let stripes = equal(&settings, stripe_height);
        let mut job = Job::open(&settings, &cue, workspace, &mut picture, &stripes).unwrap();
        assert_eq!(job.total(), total);
        // Round after round, so that no stripe is done before the others are begun.
        for done in (0..total).step_by(budget as usize) {
            for stripe in (0..job.stripes()).rev() {
                let due = budget.min(total - done);
                assert_eq!(job.work(workspace, stripe, budget), Ok(due));
            }
        }
        assert!((0..job.stripes()).all(|stripe| job.done(stripe) == total));
        assert!(
            job.picture() == due,
            "stripes of {stripe_height}, budget {budget}"
        );
    }
}

/// Each of the three shows in this picture, so that none of them is left out of a Work.
#[test]
fn a_job_in_stripes_asks_for_each_setting() {
    let (settings, cue, _) = striped();
    let changes: [fn(&mut Settings); 3] = [
        |settings| settings.side_margin_px = 31,
        |settings| settings.slant = 7,
        |settings| settings.outline_cap_px = 3,
    ];
    for change in changes {
        let mut changed = settings;
        change(&mut changed);
        assert!(drawn(&changed, &cue) != drawn(&settings, &cue));
        let workspace = &mut Workspace::new();
        let mut picture = painted(&changed, 0);
        let stripes = equal(&changed, 20);
        let mut job = Job::open(&changed, &cue, workspace, &mut picture, &stripes).unwrap();
        for stripe in 0..job.stripes() {
            assert_eq!(job.work(workspace, stripe, u32::MAX), Ok(job.total()));
        }
        assert!(job.picture() == drawn(&changed, &cue));
    }
}
