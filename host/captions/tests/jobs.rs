//! Open and Work by the wrapper.

mod common;

use captions::{Align, Cause, GlyphMode, Job, Refusal, Settings, Stripes, Workspace, draw, wrap};
use common::{PAINT, Random, equal, painted, plain, tape};

const AFTER: usize = 8;

/// Two lines that cross the stripes below, of letters with ink and an outline: 9 strokes each.
fn cue() -> (Settings, Vec<u8>, u32) {
    let settings = Settings {
        outline_px: 1,
        ..plain(48, 41)
    };
    (settings, tape("ab\ncde"), 5 * 9)
}

fn drawn(settings: &Settings, tape: &[u8]) -> Vec<u8> {
    let mut picture = painted(settings, AFTER);
    draw(settings, tape, &mut Workspace::new(), &mut picture).expect("it is admitted");
    picture
}

/// A job on this picture in stripes of one height.
fn opened<'a>(
    settings: &Settings,
    tape: &'a [u8],
    picture: &'a mut [u8],
    stripe_height: u32,
) -> Job<'a> {
    let stripes = equal(settings, stripe_height);
    Job::open(settings, tape, &mut Workspace::new(), picture, &stripes).expect("it is admitted")
}

/// Does the job's next strokes on a stripe until so many are done.
fn work_to(job: &mut Job, stripe: u32, count: u32) {
    let budget = count - job.done(stripe);
    let done = job.work(&mut Workspace::new(), stripe, budget);
    assert_eq!(done, Ok(budget));
    assert_eq!(job.done(stripe), count);
}

#[test]
fn an_open_job_has_done_nothing() {
    let (settings, tape, total) = cue();
    let mut picture = painted(&settings, AFTER);
    let job = opened(&settings, &tape, &mut picture, 8);
    assert_eq!(job.total(), total);
    assert_eq!(job.stripes(), 6); // five of 8 rows, and one of 1
    assert_eq!(
        [1, 5, 6].map(|k| job.rows(k)),
        [Some(8..16), Some(40..41), None]
    );
    assert!((0..70).all(|stripe| job.done(stripe) == 0));
    let (cleared, after) = job.picture().split_at(48 * 41 * 4);
    assert!(cleared.iter().all(|&byte| byte == 0));
    assert_eq!(after, [PAINT; AFTER]);
}

#[test]
fn stripes_are_counted() {
    let stripes = |height, stripe_height| {
        let settings = plain(1, height);
        let mut picture = settings.new_picture();
        let workspace = &mut Workspace::new();
        let stripes = Stripes::of_height(height, stripe_height)?;
        let job = Job::open(&settings, &[], workspace, &mut picture, &stripes);
        job.map(|job| job.stripes())
    };
    assert_eq!(stripes(64, 1), Ok(64));
    assert_eq!(stripes(65, 2), Ok(33));
    assert_eq!(stripes(4096, 64), Ok(64));
    assert_eq!(stripes(5, u32::MAX), Ok(1));
    assert_eq!(stripes(0, 1), Ok(0));
}

#[test]
fn work_draws_on_its_own_stripe_alone() {
    let (settings, tape, total) = cue();
    let whole = drawn(&settings, &tape);
    let (row, size) = (48 * 4, 48 * 41 * 4);
    for stripe in 0..6 {
        let mut picture = painted(&settings, AFTER);
        let mut job = opened(&settings, &tape, &mut picture, 8);
        assert_eq!(job.work(&mut Workspace::new(), stripe, u32::MAX), Ok(total));
        let done = (0..64).filter(|&other| job.done(other) > 0);
        assert_eq!(done.collect::<Vec<u32>>(), [stripe]);
        assert_eq!(job.done(stripe), total);

        let from = stripe as usize * 8 * row;
        let to = size.min(from + 8 * row);
        let mut due = vec![0; size];
        due[from..to].copy_from_slice(&whole[from..to]);
        due.extend([PAINT; AFTER]);
        assert_eq!(picture, due);
    }
    assert!(whole[8 * row..16 * row].iter().any(|&byte| byte != 0));
}

#[test]
fn a_budget_is_spent_until_nothing_is_left() {
    let (settings, tape, total) = cue();
    let mut picture = settings.new_picture();
    let mut job = opened(&settings, &tape, &mut picture, 16);
    let mut work = |budget| job.work(&mut Workspace::new(), 1, budget);
    assert_eq!(work(0), Ok(0));
    assert_eq!(work(20), Ok(20));
    assert_eq!(work(20), Ok(20));
    assert_eq!(work(20), Ok(total - 40));
    assert_eq!(work(u32::MAX), Ok(0));
    assert_eq!(job.done(1), total);
}

/// What any calls leave is told by the counters alone, and once all is done it is what Draw leaves.
#[test]
fn a_job_stopped_anywhere_and_then_finished_is_draw() {
    let (settings, tape, total) = cue();
    let due = drawn(&settings, &tape);
    let mut random = Random(1);
    for stop in 0..60 {
        let stripes = equal(&settings, 1 + random.under(45));
        let workspace = &mut Workspace::new();
        let mut first = painted(&settings, AFTER);
        let mut job = Job::open(&settings, &tape, workspace, &mut first, &stripes).unwrap();
        for _ in 0..stop {
            let stripe = random.under(job.stripes());
            let left = total - job.done(stripe);
            let budget = random.under(12);
            assert_eq!(job.work(workspace, stripe, budget), Ok(budget.min(left)));
        }

        let mut second = painted(&settings, AFTER);
        let mut other = Job::open(&settings, &tape, workspace, &mut second, &stripes).unwrap();
        for stripe in 0..job.stripes() {
            work_to(&mut other, stripe, job.done(stripe));
        }
        assert_eq!(job.picture(), other.picture());

        for stripe in 0..job.stripes() {
            work_to(&mut job, stripe, total);
        }
        assert_eq!(job.picture(), due);
    }
}

fn in_each_mode() -> [Settings; 2] {
    [GlyphMode::Kept, GlyphMode::Replaced].map(|glyph_mode| Settings {
        glyph_mode,
        ..cue().0
    })
}

/// In mode 1, stroke by stroke, a job leaves what one of the replaced letters leaves in mode 0.
#[test]
fn a_job_in_mode_1_is_one_of_replaced_letters() {
    let [kept, replaced] = in_each_mode();
    let (curly, plain) = (tape("\u{201C}a\u{2019}\n\u{2014}b"), tape("\"a'\n-b"));
    let pictures = &mut [painted(&kept, AFTER), painted(&kept, AFTER)];
    let [one, other] = pictures;
    let workspace = &mut Workspace::new();
    let mut one = Job::open(&replaced, &curly, workspace, one, &equal(&replaced, 9)).unwrap();
    let mut other = Job::open(&kept, &plain, workspace, other, &equal(&kept, 9)).unwrap();
    assert_eq!(one.total(), other.total());
    for _ in 0..one.total() {
        for stripe in 0..one.stripes() {
            assert_eq!(one.work(workspace, stripe, 1), Ok(1));
            assert_eq!(other.work(workspace, stripe, 1), Ok(1));
            assert!(one.picture() == other.picture());
        }
    }
    assert!(one.picture() == drawn(&replaced, &curly));
    assert!(one.picture() != drawn(&kept, &curly));
}

/// A record holds no mode: a job that goes on in another is not refused, and draws in that.
#[test]
fn a_job_may_go_on_in_another_mode() {
    let [kept, replaced] = in_each_mode();
    let tape = tape("\u{2013}\u{2013}");
    let workspace = &mut Workspace::new();
    let mut picture = painted(&kept, AFTER);
    let stripes = equal(&kept, u32::MAX);
    let mut job = Job::open(&kept, &tape, workspace, &mut picture, &stripes).unwrap();
    assert_eq!(job.work(workspace, 0, 9), Ok(9)); // the first dash, which is a box
    let record = job.record();
    let mut job = Job::resume(&replaced, &tape, workspace, &mut picture, &record).unwrap();
    assert_eq!(job.work(workspace, 0, 9), Ok(9));
    for settings in [kept, replaced] {
        assert!(picture != drawn(&settings, &tape));
    }
}

#[test]
fn strokes_one_by_one_change_the_picture_bit_by_bit() {
    let settings = plain(48, 16);
    let tape = tape("HHH");
    let mut picture = settings.new_picture();
    let mut job = opened(&settings, &tape, &mut picture, 16);
    for letters in 1..=3 {
        let before = job.picture().to_vec();
        assert_eq!(job.work(&mut Workspace::new(), 0, 1), Ok(1));
        let changed = (0..before.len()).filter(|&at| before[at] != job.picture()[at]);
        let columns: Vec<usize> = changed.map(|at| at / 4 % 48).collect();
        assert!(!columns.is_empty());
        assert!(columns.iter().all(|column| column / 8 == letters));
    }
    assert_eq!(job.picture(), &drawn(&settings, &tape)[..48 * 16 * 4]);
}

/// Letters without ink have cells and no strokes: no Work goes to a space, a tab or a control.
#[test]
fn strokes_go_to_letters_with_ink_alone() {
    let settings = plain(64, 16);
    let tape = tape("H H\u{1}\tH\u{AD}");
    let mut picture = settings.new_picture();
    let workspace = &mut Workspace::new();
    let stripes = equal(&settings, 16);
    let mut job = Job::open(&settings, &tape, workspace, &mut picture, &stripes).unwrap();
    assert_eq!(job.total(), 3);
    for cell in [1, 3, 6] {
        let before = job.picture().to_vec();
        assert_eq!(job.work(workspace, 0, 1), Ok(1));
        let changed = (0..before.len()).filter(|&at| before[at] != job.picture()[at]);
        let columns: Vec<usize> = changed.map(|at| at / 4 % 64).collect();
        assert!(!columns.is_empty());
        assert!(columns.iter().all(|column| column / 8 == cell));
    }
    assert_eq!(job.work(workspace, 0, 1), Ok(0));
    assert_eq!(job.picture(), &drawn(&settings, &tape)[..64 * 16 * 4]);
}

#[test]
fn counters_of_words_end_at_their_strokes() {
    let (settings, ..) = cue();
    let tape = tape("to be,\nor\tnot to\u{A0}be");
    let mut picture = painted(&settings, AFTER);
    let workspace = &mut Workspace::new();
    let stripes = equal(&settings, 8);
    let mut job = Job::open(&settings, &tape, workspace, &mut picture, &stripes).unwrap();
    assert_eq!(job.total(), 14 * 9);
    for stripe in 0..job.stripes() {
        let done: Vec<_> = (0..19).map(|_| job.work(workspace, stripe, 7)).collect();
        assert_eq!(done, [vec![Ok(7); 18], vec![Ok(0)]].concat());
        assert_eq!(job.done(stripe), job.total());
    }
    assert_eq!(job.picture(), drawn(&settings, &tape));
}

/// The letters stand on a line, and there is nothing to do.
#[test]
fn a_job_without_ink_has_no_strokes() {
    let (settings, ..) = cue();
    let rows = settings.new_picture();
    for text in ["\u{A0}", "\u{AD}", "\u{A0}\u{1} \t\u{AD}"] {
        let tape = tape(text);
        let workspace = &mut Workspace::new();
        let lines = wrap(&tape, workspace, 9).expect("it is admitted");
        assert_eq!(lines[0].letters.len(), text.chars().count());
        let mut picture = painted(&settings, AFTER);
        let stripes = equal(&settings, 8);
        let mut job = Job::open(&settings, &tape, workspace, &mut picture, &stripes).unwrap();
        assert_eq!(job.total(), 0);
        let done = (0..job.stripes()).map(|stripe| job.work(workspace, stripe, u32::MAX));
        assert_eq!(done.collect::<Vec<_>>(), vec![Ok(0); 6]);
        assert_eq!(job.picture(), [&rows[..], &[PAINT; AFTER]].concat());
        assert_eq!(job.picture(), drawn(&settings, &tape));
    }
}

/// What is kept for each line then ends with the workspace: letters on a line each, and breaks before
/// a letter.
#[test]
fn as_many_lines_as_there_can_be() {
    let settings = Settings {
        align: Align::Center,
        ..plain(8, 40)
    };
    for text in ["H".repeat(4096), "\n".repeat(4095) + "H"] {
        let (tape, total) = (tape(&text), text.matches('H').count() as u32);
        let workspace = &mut Workspace::new();
        assert_eq!(wrap(&tape, workspace, 1).unwrap().len(), 4096);
        let mut picture = painted(&settings, AFTER);
        let stripes = equal(&settings, 8);
        let mut job = Job::open(&settings, &tape, workspace, &mut picture, &stripes).unwrap();
        assert_eq!(job.total(), total);
        for stripe in 0..job.stripes() {
            assert_eq!(job.work(workspace, stripe, total - 1), Ok(total - 1));
        }
        assert!(job.picture() != drawn(&settings, &tape));
        for stripe in 0..job.stripes() {
            assert_eq!(job.work(workspace, stripe, 2), Ok(1));
        }
        assert!(job.picture() == drawn(&settings, &tape));
    }
}

#[test]
fn refused_work_leaves_picture_and_counters() {
    let (settings, tape, _) = cue();
    let mut picture = painted(&settings, AFTER);
    let mut job = opened(&settings, &tape, &mut picture, 8);
    work_to(&mut job, 3, 30);
    let before = job.picture().to_vec();
    for stripe in [6, 63, 64, 65, u32::MAX] {
        let answer = job.work(&mut Workspace::new(), stripe, 7);
        assert_eq!(
            answer,
            Err(Refusal {
                cause: Cause::NoSuchStripe,
                place: 0
            })
        );
    }
    assert_eq!(job.picture(), before);
    let done: Vec<u32> = (0..7).map(|stripe| job.done(stripe)).collect();
    assert_eq!(done, [0, 0, 0, 30, 0, 0, 0]);
    assert_eq!(job.done(u32::MAX), 0);
}

#[test]
fn a_refused_open_leaves_the_picture() {
    let settings = plain(20, 65);
    let mut picture = painted(&settings, AFTER);
    let mut refused = |tape: &[u8], stripes: Stripes| {
        let workspace = &mut Workspace::new();
        let job = Job::open(&settings, tape, workspace, &mut picture, &stripes);
        job.map(|job| job.total()).unwrap_err()
    };
    // Those of a picture of another height.
    for other in [64, 66, 0] {
        assert_eq!(
            refused(&[2, b'A'], Stripes::of_height(other, 8).unwrap()),
            Refusal {
                cause: Cause::StripesUnfit,
                place: 0
            }
        );
    }
    assert_eq!(
        refused(&[2, b'A', 12], Stripes::of_height(65, 2).unwrap()),
        Refusal {
            cause: Cause::UnknownCommand,
            place: 2
        }
    );
    assert_eq!(picture, painted(&settings, AFTER));
}

/// As many letters as a cue may have, each with the widest outline: more than 16 bits count.
#[test]
fn the_most_strokes_are_counted() {
    let settings = Settings {
        outline_px: captions::OUTLINE_CAP_MAX,
        outline_cap_px: captions::OUTLINE_CAP_MAX,
        ..plain(8, 2)
    };
    let tape = tape(&"x".repeat(captions::LETTERS_MAX));
    let total = 4096 * 33;
    let workspace = &mut Workspace::new();
    let mut picture = settings.new_picture();
    assert_eq!(draw(&settings, &tape, workspace, &mut picture), Ok(total));
    let stripes = equal(&settings, 1);
    let mut job = Job::open(&settings, &tape, workspace, &mut picture, &stripes).unwrap();
    assert_eq!(job.total(), total);
    assert_eq!(job.work(workspace, 1, total - 1), Ok(total - 1));
    let record = job.record();
    let mut job = Job::resume(&settings, &tape, workspace, &mut picture, &record).unwrap();
    assert_eq!((job.total(), job.done(1)), (total, total - 1));
    assert_eq!(job.work(workspace, 1, total), Ok(1));
}
