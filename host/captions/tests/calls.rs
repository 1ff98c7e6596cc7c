//! Wrap and Draw by the wrapper: document 01's cases, what each setting does, and the buffers.

mod common;

use captions::{Align, Cause, GlyphMode, Line, Refusal, Settings, Workspace, draw, wrap};
use common::{PAINT, painted, plain, tape};

/// The lines of a tape, each its letters' numbers and its columns.
fn lines(tape: &[u8], limit: u32) -> Vec<(Vec<u16>, u16)> {
    let lines = wrap(tape, &mut Workspace::new(), limit).expect("the tape is admitted");
    let pair = |Line { letters, columns }| (letters, columns);
    lines.into_iter().map(pair).collect()
}

#[test]
fn the_example_of_the_program_lines() {
    let due = [(vec![0, 1, 2, 3], 4), (vec![4, 5, 6], 3), (vec![8], 1)];
    assert_eq!(lines(&tape("ABCDE F\nG"), 4), due);
}

#[test]
fn case_a_an_empty_tape_has_no_lines() {
    assert_eq!(lines(&[], 4), []);
}

#[test]
fn cases_b_c_d_words_are_cut_at_the_limit() {
    let full = (vec![0, 1, 2, 3], 4);
    assert_eq!(lines(&tape("ABCD"), 4), vec![full.clone()]);
    assert_eq!(lines(&tape("ABCDE"), 4), [full.clone(), (vec![4], 1)]);
    let due = [full, (vec![4, 5, 6, 7], 4), (vec![], 0), (vec![9], 1)];
    assert_eq!(lines(&tape("ABCDEFGH\nI"), 4), due);
}

#[test]
fn case_e_a_control_is_a_letter_without_columns() {
    let due = [(vec![0, 1, 2, 3], 3), (vec![4, 5], 2)];
    assert_eq!(lines(&tape("AB\u{1}CDE"), 4), due);
}

#[test]
fn case_f_spaces_at_a_break_are_dropped() {
    assert_eq!(lines(&tape("A  B"), 2), [(vec![0], 1), (vec![3], 1)]);
}

#[test]
fn case_g_an_empty_text_of_another_style_ends_a_run() {
    let parted = [tape("X A"), vec![6, 1, 0], tape("B")].concat();
    assert_eq!(lines(&parted, 3), [(vec![0, 1, 2], 3), (vec![3], 1)]);
    assert_eq!(lines(&tape("X AB"), 3), [(vec![0], 1), (vec![2, 3], 2)]);
}

#[test]
fn case_k_what_is_admitted() {
    let refusal = |tape: &[u8]| {
        let Refusal { cause, place } = wrap(tape, &mut Workspace::new(), 4).unwrap_err();
        (cause.number(), place)
    };
    assert_eq!(refusal(&[6]), (3, 1));
    assert_eq!(refusal(&[0]), (3, 0));
    assert_eq!(refusal(&[2]), (2, 0));
    assert_eq!(refusal(&[4, 0x00, 0xD8, 0x00]), (4, 0));
    assert_eq!(refusal(&[0x0C]), (1, 0));
    assert_eq!(lines(&[4, 0x10, 0xFF, 0xFF], 4), [(vec![0], 1)]);
}

/// How many strokes a tape has with an outline.
fn strokes(outline_px: u32, tape: &[u8]) -> u32 {
    let settings = Settings {
        outline_px,
        ..Settings::new(64, 32)
    };
    let mut picture = settings.new_picture();
    let strokes = draw(&settings, tape, &mut Workspace::new(), &mut picture);
    strokes.expect("the tape is admitted")
}

#[test]
fn case_l_strokes() {
    let strokes = |outline| strokes(outline, &tape("AB"));
    assert_eq!([0, 1, 2, 9].map(strokes), [2, 18, 34, 34]);
}

/// The strokes of A, a letter and B with an outline of 1, and in bold with one of 2.
fn strokes_between(letter: char) -> [u32; 2] {
    let plain = tape(&format!("A{letter}B"));
    let bold = [&[6], &plain[..], &[0]].concat();
    [strokes(1, &plain), strokes(2, &bold)]
}

#[test]
fn letters_without_ink_have_no_strokes() {
    assert_eq!(strokes(1, &tape("A\u{1}B")), 18);
    for code in (0x00..=0x20).chain(0x7F..=0xA0).chain([0xAD]) {
        let letter = char::from(code);
        assert_eq!(strokes_between(letter), [2 * 9, 2 * 17], "{letter:?}");
    }
}

#[test]
fn letters_beside_them_have_strokes() {
    for letter in "!~\u{A1}\u{AC}\u{AE}\u{FF}\u{100}\u{1AD}\u{20A0}".chars() {
        assert_eq!(strokes_between(letter), [3 * 9, 3 * 17], "{letter:?}");
    }
}

#[test]
fn strokes_that_cannot_be_seen_count() {
    let draw = |settings: &Settings, text| {
        let mut picture = settings.new_picture();
        let answer = draw(settings, &tape(text), &mut Workspace::new(), &mut picture);
        assert!(picture.iter().all(|&byte| byte == 0));
        answer
    };
    let clear = Settings {
        default_color: [1, 2, 3, 0],
        ..plain(16, 16)
    };
    assert_eq!(draw(&clear, "A"), Ok(1));
    // These start right of the last column.
    assert_eq!(draw(&plain(8, 16), "AB"), Ok(2));
}

#[test]
fn a_voice_adds_two_letters() {
    let voice = [vec![9], tape("V"), vec![0], tape("x"), vec![0]].concat();
    assert_eq!(lines(&voice, 9), [(vec![0, 1, 2, 3], 4)]);
}

#[test]
fn wrap_with_more_than_256_letters_and_lines() {
    let due: Vec<_> = (0..4096).map(|number| (vec![number], 1)).collect();
    assert_eq!(lines(&tape(&"x".repeat(4096)), 1), due);
    let all = (0..4096).collect();
    assert_eq!(lines(&tape(&"x".repeat(4096)), 4096), [(all, 4096)]);
}

/// The pixels that are not clear: left and right column, top and bottom row.
fn lit(settings: &Settings, text: &str) -> (usize, usize, usize, usize) {
    let mut picture = settings.new_picture();
    draw(settings, &tape(text), &mut Workspace::new(), &mut picture).expect("it is admitted");
    let (pixels, _) = picture.as_chunks::<4>();
    let width = settings.width as usize;
    let found = || (0..pixels.len()).filter(|&at| pixels[at][3] != 0);
    let column = |at: usize| at % width;
    (
        found().map(column).min().expect("a pixel is lit"),
        found().map(column).max().unwrap_or(0),
        found().min().unwrap_or(0) / width,
        found().max().unwrap_or(0) / width,
    )
}

/// The missing glyph is a hollow box: in its cell of 8 by 16, columns 1 to 6 and rows 2 to 13.
const BOX: &str = "\u{100}";

#[test]
fn width_height_and_margin_place_a_line() {
    let settings = plain(40, 24);
    assert_eq!(
        lit(&settings, BOX),
        (8 + 1, 8 + 6, 24 - 16 + 2, 24 - 16 + 13)
    );
    let raised = Settings {
        bottom_margin_px: 5,
        ..settings
    };
    assert_eq!(lit(&raised, BOX), (9, 14, 10 - 5, 21 - 5));
}

#[test]
fn the_line_height_parts_lines() {
    let boxes = "\u{100}\n\u{100}";
    let settings = plain(40, 64);
    assert_eq!(lit(&settings, boxes), (9, 14, 64 - 32 + 2, 61));
    let parted = Settings {
        line_height_px: 25,
        ..settings
    };
    assert_eq!(lit(&parted, boxes), (9, 14, 34 - 9, 61));
    let close = Settings {
        line_height_px: 3,
        ..settings
    };
    assert_eq!(lit(&close, boxes), lit(&settings, boxes));
}

#[test]
fn alignments_place_a_line() {
    let left = |align| {
        let mut settings = plain(60, 16);
        settings.align = align;
        lit(&settings, BOX).0
    };
    let ends = [Align::Left, Align::Start, Align::Right, Align::End];
    assert_eq!(
        ends.map(left),
        [8 + 1, 8 + 1, 60 - 8 - 8 + 1, 60 - 8 - 8 + 1]
    );
    assert_eq!(left(Align::Center), (60 - 8) / 2 + 1);
}

/// The bytes of a picture of one line of words, in a glyph mode.
fn in_mode(glyph_mode: GlyphMode, words: &str) -> Vec<u8> {
    let settings = Settings {
        glyph_mode,
        outline_px: 2,
        ..plain(120, 20)
    };
    let mut picture = settings.new_picture();
    let tape = [b"\x06", &tape(words)[..], b"\x00", &tape(words)].concat();
    draw(&settings, &tape, &mut Workspace::new(), &mut picture).expect("an admitted cue");
    picture
}

#[test]
fn mode_1_replaces_curly_quotes_and_dashes() {
    let [kept, replaced] = [GlyphMode::Kept, GlyphMode::Replaced];
    let curly = "\u{2018}\u{2019}\u{201C}\u{201D}\u{2013}\u{2014}";
    assert!(in_mode(replaced, curly) == in_mode(kept, "''\"\"--"));
    assert!(in_mode(kept, curly) == in_mode(kept, &BOX.repeat(6)));
    // What stands beside them, and what they are drawn as, stays.
    for others in [
        "\u{2012}\u{2015}\u{2017}",
        "\u{201A}\u{201B}\u{201E}",
        "'\"-A\u{FF}",
    ] {
        assert!(in_mode(replaced, others) == in_mode(kept, others));
    }
}

#[test]
fn an_outline_lies_around_a_letter() {
    let lit = |outline_px| {
        let mut settings = plain(40, 24);
        settings.outline_px = outline_px;
        lit(&settings, BOX)
    };
    assert_eq!(lit(1), (8, 15, 9, 22));
    assert_eq!(lit(2), (7, 16, 8, 23));
}

#[test]
fn colors_have_their_places_and_their_bytes_in_order() {
    let settings = Settings {
        default_color: [1, 2, 3, 255],
        outline_color: [4, 5, 6, 255],
        outline_px: 1,
        ..plain(24, 24)
    };
    let mut picture = settings.new_picture();
    draw(&settings, &tape(BOX), &mut Workspace::new(), &mut picture).expect("it is admitted");
    let (pixels, _) = picture.as_chunks::<4>();
    // The box's upper left corner, and the outline's.
    assert_eq!(pixels[10 * 24 + 9], [1, 2, 3, 255]);
    assert_eq!(pixels[9 * 24 + 8], [4, 5, 6, 255]);
    assert_eq!(pixels[0], [0; 4]);
}

#[test]
fn a_color_list_has_its_own_color() {
    let settings = plain(24, 24);
    let colored = [vec![8, 10, 20, 30], tape(BOX), vec![0]].concat();
    let mut picture = settings.new_picture();
    draw(&settings, &colored, &mut Workspace::new(), &mut picture).expect("it is admitted");
    let (pixels, _) = picture.as_chunks::<4>();
    assert_eq!(pixels[10 * 24 + 9], [10, 20, 30, 255]);
}

#[test]
fn draw_clears_the_picture_and_leaves_the_bytes_after_it() {
    let settings = plain(30, 20);
    let mut picture = painted(&settings, 9);
    let size = settings.new_picture().len();
    assert_eq!(size, 30 * 20 * 4);
    assert_eq!(
        draw(&settings, &[], &mut Workspace::new(), &mut picture),
        Ok(0)
    );
    assert!(picture[..size].iter().all(|&byte| byte == 0));
    assert!(picture[size..].iter().all(|&byte| byte == PAINT));
}

#[test]
fn a_refused_draw_leaves_the_picture() {
    let settings = plain(30, 20);
    let mut picture = painted(&settings, 0);
    let answer = draw(
        &settings,
        &[2, b'A', 0],
        &mut Workspace::new(),
        &mut picture,
    );
    assert_eq!(
        answer,
        Err(Refusal {
            cause: Cause::Unbalanced,
            place: 2
        })
    );
    assert_eq!(picture, painted(&settings, 0));
}

#[test]
fn a_workspace_serves_any_number_of_calls() {
    let settings = plain(64, 32);
    let used = &mut Workspace::new();
    let mut due = settings.new_picture();
    draw(&settings, &tape("first\nlines"), used, &mut due).expect("it is admitted");
    wrap(&tape(&"x".repeat(4096)), used, 7).expect("it is admitted");
    let mut picture = settings.new_picture();
    draw(&settings, &tape("first\nlines"), used, &mut picture).expect("it is admitted");
    assert_eq!(picture, due);
    assert!(due.iter().any(|&byte| byte != 0));
}

#[test]
fn a_picture_may_have_no_width_or_no_height() {
    for (width, height) in [(0, 20), (20, 0), (0, 0)] {
        let settings = plain(width, height);
        assert!(settings.new_picture().is_empty());
        let mut after = vec![PAINT; 5];
        let answer = draw(&settings, &tape("AB"), &mut Workspace::new(), &mut after);
        assert_eq!(answer, Ok(2));
        assert_eq!(after, [PAINT; 5]);
    }
}

#[test]
fn the_largest_sides_are_accepted() {
    for (width, height) in [(4096, 1), (1, 4096), (4096, 0)] {
        let settings = plain(width, height);
        let mut picture = settings.new_picture();
        assert_eq!(picture.len(), (width * height * 4) as usize);
        let answer = draw(&settings, &tape("A"), &mut Workspace::new(), &mut picture);
        assert_eq!(answer, Ok(1));
    }
}

#[test]
fn the_largest_numbers_are_taken_or_refused() {
    let settings = Settings {
        bottom_margin_px: u32::MAX,
        outline_px: u32::MAX,
        ..Settings::new(16, 16)
    };
    let mut picture = settings.new_picture();
    let answer = draw(&settings, &tape("A"), &mut Workspace::new(), &mut picture);
    assert_eq!(answer, Ok(17));

    let largest = Settings {
        line_height_px: u32::MAX,
        ..Settings::new(u32::MAX, u32::MAX)
    };
    assert!(largest.new_picture().is_empty());
    let refused = Refusal {
        cause: Cause::OutOfRange,
        place: 0,
    };
    assert_eq!(
        draw(&largest, &[], &mut Workspace::new(), &mut []),
        Err(refused)
    );
    assert_eq!(wrap(&[], &mut Workspace::new(), u32::MAX), Err(refused));
}
