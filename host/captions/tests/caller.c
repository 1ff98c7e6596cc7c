/*
 * A caller of libcaptions.a in C, and a test of captions.h: wraps a cue, draws it, draws it again
 * in stripes, and is refused in every way that there is.
 */
#include "captions.h"

#include <stdio.h>
#include <string.h>

enum {
    WIDTH = 96,
    HEIGHT = 40,
    PICTURE_BYTES = WIDTH * HEIGHT * 4,
    AFTER = 16, /* bytes after the picture */
    STRIPE_HEIGHT = 7,
    STRIPES = 6, /* of that height; the last has 5 rows */
    BUDGET = 5,
    PAINT = 0xA5 /* what buffers hold before a call */
};

/* What a call that draws is given. */
struct call {
    captions_settings settings;
    const uint8_t *tape;
    size_t tape_len;
    uint8_t *workspace;
    size_t workspace_len;
    uint8_t *picture;
    size_t picture_len;
};

/* "Hi" in bold, a break, and "you". */
static const uint8_t GREETING[] = {
    CAPTIONS_BOLD, CAPTIONS_LETTER_1, 'H', CAPTIONS_LETTER_1, 'i', CAPTIONS_END,
    CAPTIONS_BREAK, CAPTIONS_LETTER_1, 'y', CAPTIONS_LETTER_1, 'o', CAPTIONS_LETTER_1, 'u'};
enum { GREETING_LETTERS = 5 };

/* The box of a letter without a glyph: in its cell of 8 by 16, columns 1 to 6 and rows 2 to 13. */
static const uint8_t BOX[] = {CAPTIONS_LETTER_2, 0x01, 0x00};

/* In italic a comma and the box, which have ink below their base line, and g; a break; and "yo". */
static const uint8_t LEANING[] = {
    CAPTIONS_ITALIC, CAPTIONS_LETTER_1, ',', CAPTIONS_LETTER_2, 0x01, 0x00, CAPTIONS_LETTER_1, 'g',
    CAPTIONS_END, CAPTIONS_BREAK, CAPTIONS_LETTER_1, 'y', CAPTIONS_LETTER_1, 'o'};
enum { LEANING_LETTERS = 5 };

static uint8_t workspace[CAPTIONS_WORKSPACE_MIN];
static uint8_t picture[PICTURE_BYTES + AFTER];
static captions_record record;

static int passed;
static int failed;

static void check(int holds, const char *what)
{
    if (holds) {
        passed++;
    } else {
        failed++;
        fprintf(stderr, "FAILED: %s\n", what);
    }
}

/* The three calls that draw. */

static uint64_t draw(const struct call *c)
{
    return captions_draw(&c->settings, c->tape, c->tape_len, c->workspace, c->workspace_len,
                         c->picture, c->picture_len);
}

static uint64_t open_job(const struct call *c, captions_stripes stripes)
{
    return captions_open(&c->settings, c->tape, c->tape_len, c->workspace, c->workspace_len,
                         c->picture, c->picture_len, &stripes, &record);
}

/* In stripes of one height. */
static uint64_t open_equal(const struct call *c, uint32_t stripe_height)
{
    return open_job(c, captions_stripes_of_height(c->settings.height, stripe_height));
}

static uint64_t work(const struct call *c, uint32_t stripe, uint32_t budget)
{
    return captions_work(&c->settings, c->tape, c->tape_len, c->workspace, c->workspace_len,
                         c->picture, c->picture_len, &record, stripe, budget);
}

/* A call that is accepted: the greeting in yellow, with a blue outline of one pixel. */
static struct call good_call(void)
{
    struct call c;
    c.settings = captions_settings_usual(WIDTH, HEIGHT);
    c.settings.default_color = 0xFFEE11FF;
    c.settings.outline_color = 0x0022CCFF;
    c.settings.line_height = 16;
    c.settings.bottom_margin = 4;
    c.tape = GREETING;
    c.tape_len = sizeof GREETING;
    c.workspace = workspace;
    c.workspace_len = sizeof workspace;
    c.picture = picture;
    c.picture_len = sizeof picture;
    return c;
}

/* The leaning letters with the steepest slant and the widest outline. */
static struct call house_call(void)
{
    struct call c = good_call();
    c.settings.outline = UINT32_MAX;
    c.settings.alignment = CAPTIONS_ALIGN_END;
    c.settings.side_margin = 40;
    c.settings.slant = CAPTIONS_SLANT_MAX;
    c.settings.outline_cap = CAPTIONS_OUTLINE_CAP_MAX;
    c.tape = LEANING;
    c.tape_len = sizeof LEANING;
    return c;
}

/* Whether so many bytes are all this one. */
static int is_all(const void *bytes, size_t count, int byte)
{
    const uint8_t *next = (const uint8_t *)bytes;
    for (; count > 0; count--) {
        if (*next++ != byte) {
            return 0;
        }
    }
    return 1;
}

/* How many pixels of the picture have a color 0xRRGGBBAA. */
static int pixels_of(uint32_t color)
{
    int count = 0;
    for (size_t at = 0; at < PICTURE_BYTES; at += 4) {
        uint32_t pixel = (uint32_t)picture[at] << 24 | (uint32_t)picture[at + 1] << 16
            | (uint32_t)picture[at + 2] << 8 | picture[at + 3];
        count += pixel == color;
    }
    return count;
}

/* The leftmost column of a row with a pixel that is not clear, or WIDTH. */
static size_t first_lit_of_row(size_t row)
{
    size_t column = 0;
    while (column < WIDTH && picture[4 * (WIDTH * row + column) + 3] == 0) {
        column++;
    }
    return column;
}

/* The leftmost column of all rows. */
static size_t first_lit_column(void)
{
    size_t first = WIDTH;
    for (size_t row = 0; row < HEIGHT; row++) {
        size_t column = first_lit_of_row(row);
        first = column < first ? column : first;
    }
    return first;
}

/* Wrap leaves each line's letters and columns, and then the numbers of the letters. */
static void check_wrap(void)
{
    static const uint8_t tape[] = {
        CAPTIONS_LETTER_1, 'A', CAPTIONS_LETTER_1, 'B', CAPTIONS_LETTER_1, 'C',
        CAPTIONS_LETTER_1, 'D', CAPTIONS_LETTER_1, 'E', CAPTIONS_LETTER_1, ' ',
        CAPTIONS_LETTER_1, 'F', CAPTIONS_BREAK,    CAPTIONS_LETTER_1, 'G'};
    static const unsigned due[] = {4, 4, 3, 3, 1, 1, 0, 1, 2, 3, 4, 5, 6, 8};
    uint64_t lines = captions_wrap(tape, sizeof tape, workspace, sizeof workspace, 4);
    check(lines == 3, "Wrap: ABCDE F, break, G at 4 columns has three lines");
    int same = 1;
    for (size_t i = 0; i < sizeof due / sizeof due[0]; i++) {
        unsigned number = (unsigned)workspace[2 * i] << 8 | workspace[2 * i + 1];
        same = same && number == due[i];
    }
    check(same, "Wrap: the lines are ABCD, E F and G");
}

/* Every command is known by its name; letters of one, two and three bytes are one letter each. */
static void check_commands(void)
{
    static const uint8_t tape[] = {
        CAPTIONS_EMPTY, CAPTIONS_TIME_MARK,
        CAPTIONS_VOICE, CAPTIONS_LETTER_1, 'V', CAPTIONS_END,
        CAPTIONS_GROUP, CAPTIONS_LETTER_2, 0x20, 0xAC, CAPTIONS_END, CAPTIONS_END,
        CAPTIONS_COLOR, 0x11, 0x22, 0x33,
        CAPTIONS_ITALIC, CAPTIONS_LETTER_3, 0x01, 0xF6, 0x00, CAPTIONS_END, CAPTIONS_END};
    uint64_t lines = captions_wrap(tape, sizeof tape, workspace, sizeof workspace, 9);
    check(captions_refused(lines) == 0, "Wrap: a tape of every command is accepted");
    check(captions_answer(lines) == 1, "Wrap: it has one line");
    check(workspace[0] == 0 && workspace[1] == 5, "Wrap: of V, a colon, a space and two letters");
}

/* The settings that the maker makes, one by one. */
static void check_usual_settings(void)
{
    captions_settings usual = captions_settings_usual(WIDTH, HEIGHT);
    check(usual.width == WIDTH && usual.height == HEIGHT, "usual settings: the size");
    check(usual.default_color == 0xFFFFFFFF, "usual settings: white letters");
    check(usual.outline_color == 0x000000FF, "usual settings: a black outline, opaque");
    check(usual.line_height == 20, "usual settings: the line height");
    check(usual.bottom_margin == 24, "usual settings: the bottom margin");
    check(usual.outline == 1, "usual settings: an outline of a pixel");
    check(usual.alignment == CAPTIONS_ALIGN_CENTER, "usual settings: lines at the center");
    check(usual.glyph_mode == CAPTIONS_GLYPHS_KEPT, "usual settings: no letter replaced");
    check(usual.side_margin == 8, "usual settings: the side margin");
    check(usual.slant == 2, "usual settings: the slant");
    check(usual.outline_cap == 2, "usual settings: the outline's cap");
}

static void check_draw(void)
{
    struct call c = good_call();
    memset(picture, PAINT, sizeof picture);
    uint64_t drawn = draw(&c);
    check(captions_refused(drawn) == 0, "Draw: is accepted");
    check(captions_answer(drawn) == GREETING_LETTERS * 9, "Draw: nine strokes a letter with ink");
    check(pixels_of(0) > 0, "Draw: clears the picture");
    check(pixels_of(c.settings.default_color) > 0, "Draw: letters have the default color");
    check(pixels_of(c.settings.outline_color) > 0, "Draw: outlines have the outline color");
    check(is_all(picture + PICTURE_BYTES, AFTER, PAINT), "Draw: the bytes after the picture stay");

    c.settings.outline = 0;
    check(draw(&c) == GREETING_LETTERS, "Draw: without an outline, a stroke a letter");
    check(pixels_of(c.settings.outline_color) == 0, "Draw: outline 0 draws none");
    c.settings.outline = UINT32_MAX;
    check(draw(&c) == GREETING_LETTERS * 17, "Draw: an outline over its cap counts as the cap");
    c.settings.bottom_margin = UINT32_MAX;
    check(draw(&c) == GREETING_LETTERS * 17, "Draw: any bottom margin is accepted");
}

static size_t lit_from(uint32_t alignment)
{
    struct call c = good_call();
    c.settings.alignment = alignment;
    check(captions_refused(draw(&c)) == 0, "Draw: the alignment is accepted");
    return first_lit_column();
}

static void check_alignments(void)
{
    size_t left = lit_from(CAPTIONS_ALIGN_LEFT);
    size_t center = lit_from(CAPTIONS_ALIGN_CENTER);
    size_t right = lit_from(CAPTIONS_ALIGN_RIGHT);
    check(left < center, "alignment: center starts right of left");
    check(center < right, "alignment: right starts right of center");
    check(lit_from(CAPTIONS_ALIGN_START) == left, "alignment: start is as left");
    check(lit_from(CAPTIONS_ALIGN_END) == right, "alignment: end is as right");
}

/* How many pixels of the default color a letter of two bytes has in a glyph mode. */
static int pixels_in_mode(uint32_t mode, uint8_t high, uint8_t low)
{
    const uint8_t tape[] = {CAPTIONS_LETTER_2, high, low};
    struct call c = good_call();
    c.tape = tape;
    c.tape_len = sizeof tape;
    c.settings.glyph_mode = mode;
    check(draw(&c) == 9, "Draw: the glyph mode is accepted");
    return pixels_of(c.settings.default_color);
}

static void check_glyph_modes(void)
{
    const uint32_t kept = CAPTIONS_GLYPHS_KEPT, replaced = CAPTIONS_GLYPHS_REPLACED;
    int box = pixels_in_mode(kept, 0x01, 0x00);
    int quote = pixels_in_mode(kept, 0x00, '\'');
    check(box != quote, "glyph mode: a box is no quote");
    check(pixels_in_mode(kept, 0x20, 0x19) == box, "glyph mode 0: a curly quote is a box");
    check(pixels_in_mode(replaced, 0x20, 0x19) == quote, "glyph mode 1: it is a plain quote");
    check(pixels_in_mode(replaced, 0x20, 0x15) == box, "glyph mode 1: U+2015 is a box");
    check(pixels_in_mode(replaced, 0x00, '\'') == quote, "glyph mode 1: a plain quote stays");
}

/*
 * Works on a stripe until its strokes are done. Returns whether they came to an end, in no more
 * calls than the longest of these jobs has strokes, and no call was refused.
 */
static int finish(const struct call *c, uint32_t stripe)
{
    uint64_t done = BUDGET;
    for (int calls = 0; calls < LEANING_LETTERS * 33 && done == BUDGET; calls++) {
        done = work(c, stripe, BUDGET);
    }
    return done < BUDGET;
}

/* A job, all its stripes done a few strokes at a time, leaves what Draw leaves. */
static void check_job(struct call c)
{
    static uint8_t drawn[sizeof picture];
    memset(picture, PAINT, sizeof picture);
    uint64_t total = draw(&c);
    memcpy(drawn, picture, sizeof picture);

    memset(picture, PAINT, sizeof picture);
    check(open_equal(&c, STRIPE_HEIGHT) == total, "Open: answers as many strokes as Draw");
    check(is_all(picture, PICTURE_BYTES, 0), "Open: clears the picture");
    check(is_all(picture + PICTURE_BYTES, AFTER, PAINT), "Open: the bytes after the picture stay");
    check(record.count == STRIPES, "Open: the record has the count of the stripes");
    check(record.ends[0] == STRIPE_HEIGHT, "Open: the record has the first end");
    check(record.ends[STRIPES - 1] == HEIGHT, "Open: the record has the last end");
    check(is_all(record.counters, sizeof record.counters, 0), "Open: the counters are 0");

    check(work(&c, 2, BUDGET) == BUDGET, "Work: does as many strokes as its budget");
    check(record.counters[2] == BUDGET, "Work: counts them");
    for (uint32_t stripe = 0; stripe < STRIPES; stripe++) {
        check(finish(&c, stripe), "Work: is accepted until the stripe is done");
        check(record.counters[stripe] == total, "Work: all strokes of the stripe are counted");
    }
    check(work(&c, 2, BUDGET) == 0, "Work: nothing is left of a stripe that is done");
    check(memcmp(picture, drawn, sizeof picture) == 0, "Work: the picture is what Draw leaves");
}

/* Whether Draw makes one picture of two calls, with as many strokes. */
static int draws_as(const struct call *one, const struct call *other)
{
    static uint8_t drawn[sizeof picture];
    uint64_t strokes = draw(one);
    memcpy(drawn, picture, sizeof picture);
    return draw(other) == strokes && memcmp(picture, drawn, sizeof picture) == 0;
}

/* Whether it does of two tapes with this call's settings. */
static int draws_alike(struct call c, const uint8_t *one, size_t one_len, const uint8_t *other,
                       size_t other_len)
{
    struct call d = c;
    c.tape = one;
    c.tape_len = one_len;
    d.tape = other;
    d.tape_len = other_len;
    return draws_as(&c, &d);
}

/* Where the default color is not white, Draw may make other lines than Wrap. */
static void check_lines_of_colors(void)
{
    static const uint8_t tape[] = {
        CAPTIONS_LETTER_1, 'X', CAPTIONS_LETTER_1, ' ', CAPTIONS_LETTER_1, 'A',
        CAPTIONS_COLOR, 0xFF, 0xFF, 0xFF, CAPTIONS_LETTER_1, 'B', CAPTIONS_END};
    static const uint8_t broken_before_a[] = {
        CAPTIONS_LETTER_1, 'X', CAPTIONS_BREAK, CAPTIONS_LETTER_1, 'A',
        CAPTIONS_COLOR, 0xFF, 0xFF, 0xFF, CAPTIONS_LETTER_1, 'B', CAPTIONS_END};
    static const uint8_t broken_before_b[] = {
        CAPTIONS_LETTER_1, 'X', CAPTIONS_LETTER_1, ' ', CAPTIONS_LETTER_1, 'A', CAPTIONS_BREAK,
        CAPTIONS_COLOR, 0xFF, 0xFF, 0xFF, CAPTIONS_LETTER_1, 'B', CAPTIONS_END};
    struct call c = good_call();
    captions_wrap(tape, sizeof tape, workspace, sizeof workspace, 3);
    check(workspace[1] == 1 && workspace[5] == 2, "Wrap: X, and then AB");
    c.settings.width = 3 * 8;
    c.settings.default_color = 0xFFFFFFFF;
    check(draws_alike(c, tape, sizeof tape, broken_before_a, sizeof broken_before_a),
          "Draw: X and AB, in white");
    c.settings.default_color = 0x00FF00FF;
    check(draws_alike(c, tape, sizeof tape, broken_before_b, sizeof broken_before_b),
          "Draw: X A and B, of two colors");
    check(!draws_alike(c, tape, sizeof tape, broken_before_a, sizeof broken_before_a),
          "Draw: X A and B are not X and AB");
}

/* The leftmost column of the box with an alignment and a side margin. */
static size_t box_from(uint32_t alignment, uint32_t side_margin)
{
    struct call c = good_call();
    c.tape = BOX;
    c.tape_len = sizeof BOX;
    c.settings.outline = 0;
    c.settings.alignment = alignment;
    c.settings.side_margin = side_margin;
    check(draw(&c) == 1, "Draw: the side margin is accepted, and the stroke counted");
    return first_lit_column();
}

/* A line at a side stays the margin from it, even where that takes it beyond the other side. */
static void check_side_margins(void)
{
    static const struct {
        uint32_t margin;
        size_t left, right;
    } due[] = {
        {0, 1, WIDTH - 8 + 1}, {8, 9, WIDTH - 16 + 1}, {88, 89, 1}, {89, 90, 0},
        {CAPTIONS_SIDE_MARGIN_MAX, WIDTH, WIDTH}};
    for (size_t i = 0; i < sizeof due / sizeof due[0]; i++) {
        uint32_t margin = due[i].margin;
        check(box_from(CAPTIONS_ALIGN_LEFT, margin) == due[i].left, "side margin: left");
        check(box_from(CAPTIONS_ALIGN_START, margin) == due[i].left, "side margin: start");
        check(box_from(CAPTIONS_ALIGN_RIGHT, margin) == due[i].right, "side margin: right");
        check(box_from(CAPTIONS_ALIGN_END, margin) == due[i].right, "side margin: end");
        check(box_from(CAPTIONS_ALIGN_CENTER, margin) == (WIDTH - 8) / 2 + 1,
              "side margin: the center stays");
    }
}

/* The box in italic at the left: how far its rows are moved, from row 2 on. */
static void check_slants(void)
{
    static const uint8_t italic[] = {CAPTIONS_ITALIC, CAPTIONS_LETTER_2, 0x01, 0x00, CAPTIONS_END};
    static const int rows_of_8[] = {5, 5, 4, 4, 3, 3, 2, 2, 1, 1, 0, -1};
    static const int rows_of_1[] = {1, 1, 1, 0, 0, 0, 0, 0, 0, 0, 0, 0};
    struct call c = good_call();
    c.tape = italic;
    c.tape_len = sizeof italic;
    c.settings.outline = 0;
    c.settings.alignment = CAPTIONS_ALIGN_LEFT;
    size_t top = HEIGHT - c.settings.bottom_margin - 16;
    for (uint32_t slant = 1; slant <= CAPTIONS_SLANT_MAX; slant += CAPTIONS_SLANT_MAX - 1) {
        const int *due = slant == 1 ? rows_of_1 : rows_of_8;
        c.settings.slant = slant;
        check(draw(&c) == 1, "Draw: the slant is accepted");
        for (int row = 2; row <= 13; row++) {
            size_t first = first_lit_of_row(top + (size_t)row);
            check((int)first == 8 + 1 + due[row - 2], "slant: a row of the box");
        }
    }
    check(!draws_alike(c, italic, sizeof italic, BOX, sizeof BOX), "slant 8: is not upright");
    c.settings.slant = 0;
    check(draws_alike(c, italic, sizeof italic, BOX, sizeof BOX), "slant 0: is upright");
}

/* How many strokes an outline has is for its cap to say, in Draw and in Open. */
static void check_outline_caps(void)
{
    static const uint32_t outlines[] = {0, 1, 2, 3, 4, 5, UINT32_MAX};
    struct call c = good_call();
    for (size_t i = 0; i < sizeof outlines / sizeof outlines[0]; i++) {
        for (uint32_t cap = 0; cap <= CAPTIONS_OUTLINE_CAP_MAX; cap++) {
            uint32_t drawn = outlines[i] < cap ? outlines[i] : cap;
            c.settings.outline = outlines[i];
            c.settings.outline_cap = cap;
            check(draw(&c) == GREETING_LETTERS * (1 + 8 * drawn), "Draw: strokes by the cap");
            check(open_equal(&c, STRIPE_HEIGHT) == GREETING_LETTERS * (1 + 8 * drawn),
                  "Open: strokes by the cap");
        }
    }
    struct call other = c;
    c.settings.outline = 9;
    c.settings.outline_cap = 3;
    other.settings.outline = 3;
    other.settings.outline_cap = 4;
    check(draws_as(&c, &other), "outline 9, cap 3: is outline 3, cap 4");
    other.settings.outline = 4;
    check(!draws_as(&c, &other), "outline 9, cap 3: is not outline 4");
    c.settings.outline_cap = 0;
    other.settings.outline = 0;
    check(draws_as(&c, &other), "cap 0: is outline 0");
}

/* A job goes on in another process from its record and its picture. */
static void check_stored(void)
{
    static uint8_t drawn[sizeof picture];
    static uint8_t stored_picture[sizeof picture];
    struct call c = good_call();
    memset(picture, PAINT, sizeof picture);
    draw(&c);
    memcpy(drawn, picture, sizeof picture);
    open_equal(&c, STRIPE_HEIGHT);
    work(&c, 3, BUDGET);
    captions_record stored = record;
    memcpy(stored_picture, picture, sizeof picture);

    memset(picture, PAINT, sizeof picture);
    memset(&record, PAINT, sizeof record);
    memcpy(picture, stored_picture, sizeof picture);
    record = stored;
    for (uint32_t stripe = 0; stripe < STRIPES; stripe++) {
        check(captions_refused(work(&c, stripe, UINT32_MAX)) == 0, "Work: goes on as stored");
    }
    check(memcmp(picture, drawn, sizeof picture) == 0, "Work: and leaves what Draw leaves");
}

/* A tape without bytes is a cue without lines, and a buffer of no bytes may be NULL. */
static void check_empty(void)
{
    struct call c = good_call();
    c.tape = NULL;
    c.tape_len = 0;
    check(captions_wrap(NULL, 0, workspace, sizeof workspace, 4) == 0, "Wrap: of an empty tape");
    check(draw(&c) == 0, "Draw: of an empty tape");
    check(is_all(picture, PICTURE_BYTES, 0), "Draw: an empty tape leaves a clear picture");

    c = good_call();
    c.settings.height = 0;
    c.picture = NULL;
    c.picture_len = 0;
    check(draw(&c) == GREETING_LETTERS * 9, "Draw: on a picture without rows");
    check(open_equal(&c, STRIPE_HEIGHT) == GREETING_LETTERS * 9, "Open: of a picture without rows");
    check(captions_refused(work(&c, 0, 1)) == CAPTIONS_NO_SUCH_STRIPE, "Work: it has no stripe");
}

static void check_answer(const char *what, uint64_t answer, uint32_t number, uint32_t place)
{
    if (captions_refused(answer) == number && captions_place(answer) == place) {
        passed++;
        return;
    }
    failed++;
    fprintf(stderr, "FAILED: %s: refused %u at %u, and not %u at %u\n", what,
            (unsigned)captions_refused(answer), (unsigned)captions_place(answer),
            (unsigned)number, (unsigned)place);
}

/* What a call must leave that is refused with this number. */
static void check_left(const char *what, uint32_t number)
{
    check(is_all(picture, sizeof picture, PAINT), what);
    if ((number >= 8 && number <= 11) || number == 13) {
        check(is_all(workspace, sizeof workspace, PAINT), what);
    }
}

static void paint(void)
{
    memset(picture, PAINT, sizeof picture);
    memset(workspace, PAINT, sizeof workspace);
}

static void check_draw_refused(const struct call *c, uint32_t number, uint32_t place)
{
    paint();
    check_answer("Draw, refused", draw(c), number, place);
    check_left("Draw, refused: leaves the picture, and the workspace where it must", number);
}

static void check_open_refused(const struct call *c, captions_stripes stripes, uint32_t number,
                               uint32_t place)
{
    paint();
    memset(&record, PAINT, sizeof record);
    check_answer("Open, refused", open_job(c, stripes), number, place);
    check_left("Open, refused: leaves the picture, and the workspace where it must", number);
    check(is_all(&record, sizeof record, 0), "Open, refused: writes zeros to the record");
}

/* With the record as it is. */
static void check_work_refused(const struct call *c, uint32_t stripe, uint32_t number,
                               uint32_t place)
{
    captions_record before = record;
    paint();
    check_answer("Work, refused", work(c, stripe, BUDGET), number, place);
    check_left("Work, refused: leaves the picture, and the workspace where it must", number);
    check(memcmp(&record, &before, sizeof record) == 0, "Work, refused: leaves the record");
}

/* The record of a job in these stripes that has done nothing. */
static void new_record(captions_stripes stripes)
{
    memset(&record, 0, sizeof record);
    record.count = stripes.count;
    memcpy(record.ends, stripes.ends, sizeof record.ends);
}

/* Stripes as high as most of these calls have them. */
static captions_stripes usual_stripes(void)
{
    return captions_stripes_of_height(HEIGHT, STRIPE_HEIGHT);
}

/* A letter without ink stands in its cell and has no strokes. */
static void check_letters_without_ink(void)
{
    static const uint8_t control_between[] = {
        CAPTIONS_LETTER_1, 'A', CAPTIONS_LETTER_1, 0x01, CAPTIONS_LETTER_1, 'B'};
    static const uint8_t without_ink[] = {CAPTIONS_LETTER_1, 0xA0, CAPTIONS_LETTER_1, 0xAD};
    struct call c = good_call();
    c.tape = control_between;
    c.tape_len = sizeof control_between;
    check(draw(&c) == 18, "Draw: the letters A, 01 and B have eighteen strokes");
    new_record(usual_stripes());
    record.counters[0] = 18;
    check(work(&c, 0, BUDGET) == 0, "Work: eighteen are all");
    record.counters[0] = 19;
    check_work_refused(&c, 0, CAPTIONS_COUNTERS_UNSOUND, 0);
    record.counters[0] = 27;
    check_work_refused(&c, 0, CAPTIONS_COUNTERS_UNSOUND, 0);

    c.tape = without_ink;
    c.tape_len = sizeof without_ink;
    check(draw(&c) == 0, "Draw: a no-break space and a soft hyphen have no strokes");
    check(open_equal(&c, STRIPE_HEIGHT) == 0, "Open: nor has their job");
    check(work(&c, 3, BUDGET) == 0, "Work: which has nothing to do");
    check(is_all(picture, PICTURE_BYTES, 0), "Work: and leaves a clear picture");
}

static void check_refused(const struct call *c, uint32_t number, uint32_t place)
{
    check_draw_refused(c, number, place);
    check_open_refused(c, usual_stripes(), number, place);
    new_record(usual_stripes());
    check_work_refused(c, 0, number, place);
}

/* Whoever wrote the tape is stopped by every call. */
static void check_tape(const uint8_t *tape, size_t length, uint32_t number, uint32_t place)
{
    struct call c = good_call();
    c.tape = tape;
    c.tape_len = length;
    paint();
    check_answer("Wrap, refused", captions_wrap(tape, length, workspace, sizeof workspace, 4),
                 number, place);
    check_left("Wrap, refused: leaves the workspace where it must", number);
    check_refused(&c, number, place);
}

static void check_tape_refusals(void)
{
    static const uint8_t unknown[] = {CAPTIONS_LETTER_1, 'A', CAPTIONS_TIME_MARK + 1};
    static const uint8_t cut[] = {CAPTIONS_LETTER_1, 'A', CAPTIONS_LETTER_3, 0};
    static const uint8_t closed[] = {CAPTIONS_LETTER_1, 'A', CAPTIONS_END};
    static const uint8_t left_open[] = {CAPTIONS_BOLD, CAPTIONS_LETTER_1, 'A'};
    static const uint8_t surrogate[] = {CAPTIONS_LETTER_1, 'A',
                                        CAPTIONS_LETTER_3, 0x00, 0xD8, 0x00};
    static const uint8_t too_large[] = {CAPTIONS_LETTER_3, 0x11, 0x00, 0x00};
    static const uint8_t break_in_name[] = {CAPTIONS_VOICE, CAPTIONS_LETTER_1, 'A', CAPTIONS_BREAK};
    static uint8_t many[CAPTIONS_TAPE_MAX + 1];

    check_tape(unknown, sizeof unknown, CAPTIONS_UNKNOWN_COMMAND, 2);
    check_tape(cut, sizeof cut, CAPTIONS_OPERANDS_MISSING, 2);
    check_tape(closed, sizeof closed, CAPTIONS_UNBALANCED, 2);
    check_tape(left_open, sizeof left_open, CAPTIONS_UNBALANCED, sizeof left_open);
    check_tape(surrogate, sizeof surrogate, CAPTIONS_NOT_A_SCALAR, 2);
    check_tape(too_large, sizeof too_large, CAPTIONS_NOT_A_SCALAR, 0);
    check_tape(break_in_name, sizeof break_in_name, CAPTIONS_NOT_IN_A_NAME, 3);
    memset(many, CAPTIONS_GROUP, sizeof many);
    check_tape(many, 17, CAPTIONS_TOO_DEEP, 16);
    memset(many, CAPTIONS_BREAK, sizeof many);
    check_tape(many, CAPTIONS_LETTERS_MAX + 1, CAPTIONS_TOO_MANY_LETTERS, CAPTIONS_LETTERS_MAX);
    check_tape(many, sizeof many, CAPTIONS_TAPE_TOO_LONG, 0);

    check(captions_wrap(many, CAPTIONS_LETTERS_MAX, workspace, sizeof workspace, 4) == 0,
          "Wrap: as many letters as a cue may have, all of them breaks");
    memset(many, CAPTIONS_TIME_MARK, sizeof many);
    check(captions_wrap(many, CAPTIONS_TAPE_MAX, workspace, sizeof workspace, 4) == 0,
          "Wrap: a tape as long as it may be");
}

/* A job's counters go up to T, which the cap is part of. */
static void check_counters_of_caps(void)
{
    struct call c = house_call();
    check(draw(&c) == LEANING_LETTERS * 33, "Draw: 33 strokes for each letter with ink");
    new_record(usual_stripes());
    record.counters[1] = LEANING_LETTERS * 33;
    check(work(&c, 1, BUDGET) == 0, "Work: these are all");
    record.counters[1] = LEANING_LETTERS * 33 + 1;
    check_work_refused(&c, 1, CAPTIONS_COUNTERS_UNSOUND, 0);
    record.counters[1] = LEANING_LETTERS * 25 + 1;
    check(work(&c, 1, BUDGET) == BUDGET, "Work: goes on with the cap of 4");
    c.settings.outline_cap = 3;
    check_work_refused(&c, 1, CAPTIONS_COUNTERS_UNSOUND, 0);
}

/* A setting is accepted up to its limit, and refused above it. */
static void check_limit(struct call *c, uint32_t *setting, uint32_t limit)
{
    uint32_t before = *setting;
    *setting = limit;
    check(captions_refused(draw(c)) == 0, "Draw: a setting at its limit is accepted");
    *setting = limit + 1;
    check_refused(c, CAPTIONS_OUT_OF_RANGE, 0);
    *setting = before;
}

/* And so it is from 0 on, by Open and Work too, and the largest number is refused. */
static void check_range(struct call *c, uint32_t *setting, uint32_t limit)
{
    uint32_t before = *setting;
    check_limit(c, setting, limit);
    for (uint32_t end = 0; end <= limit; end += limit) {
        *setting = end;
        check(captions_refused(draw(c)) == 0, "Draw: both ends of a range are accepted");
        check(captions_refused(open_equal(c, STRIPE_HEIGHT)) == 0, "Open: both ends of a range");
        check(captions_refused(work(c, 0, BUDGET)) == 0, "Work: both ends of a range");
    }
    *setting = UINT32_MAX;
    check_refused(c, CAPTIONS_OUT_OF_RANGE, 0);
    *setting = before;
}

static void check_setting_refusals(void)
{
    struct call c = good_call();
    check_range(&c, &c.settings.side_margin, CAPTIONS_SIDE_MARGIN_MAX);
    check_range(&c, &c.settings.slant, CAPTIONS_SLANT_MAX);
    check_range(&c, &c.settings.outline_cap, CAPTIONS_OUTLINE_CAP_MAX);
    check_limit(&c, &c.settings.line_height, CAPTIONS_LINE_HEIGHT_MAX);
    check_limit(&c, &c.settings.alignment, CAPTIONS_ALIGN_END);
    check_limit(&c, &c.settings.glyph_mode, CAPTIONS_GLYPHS_REPLACED);
    c.settings.height = 0;
    check_limit(&c, &c.settings.width, CAPTIONS_SIDE_MAX);
    c.settings.width = 0;
    check_limit(&c, &c.settings.height, CAPTIONS_SIDE_MAX);

    uint64_t answer = captions_wrap(GREETING, sizeof GREETING, workspace, sizeof workspace,
                                    CAPTIONS_COLUMNS_MAX);
    check(answer == 2, "Wrap: the largest column limit is accepted");
    answer = captions_wrap(GREETING, sizeof GREETING, workspace, sizeof workspace,
                           CAPTIONS_COLUMNS_MAX + 1);
    check_answer("Wrap, column limit too large", answer, CAPTIONS_OUT_OF_RANGE, 0);
    answer = captions_wrap(GREETING, sizeof GREETING, workspace, sizeof workspace, 0);
    check_answer("Wrap, column limit 0", answer, CAPTIONS_OUT_OF_RANGE, 0);
}

static void check_length_refusals(void)
{
    struct call c = good_call();
    c.picture_len = PICTURE_BYTES - 1;
    check_refused(&c, CAPTIONS_PICTURE_TOO_SHORT, 0);
    c.picture_len = PICTURE_BYTES;
    check(captions_refused(draw(&c)) == 0, "Draw: a picture without bytes after it is accepted");

    c.workspace_len = CAPTIONS_WORKSPACE_MIN - 1;
    check_refused(&c, CAPTIONS_WORKSPACE_TOO_SHORT, 0);
    uint64_t answer = captions_wrap(c.tape, c.tape_len, workspace, CAPTIONS_WORKSPACE_MIN - 1, 4);
    check_answer("Wrap, workspace too short", answer, CAPTIONS_WORKSPACE_TOO_SHORT, 0);
}

static void check_job_refusals(void)
{
    struct call c = good_call();
    new_record(usual_stripes());
    check_work_refused(&c, STRIPES, CAPTIONS_NO_SUCH_STRIPE, 0);
    record.counters[0] = GREETING_LETTERS * 9 + 1;
    check_work_refused(&c, 0, CAPTIONS_COUNTERS_UNSOUND, 0);
    record.counters[0] = 0;
    record.counters[STRIPES] = 1;
    check_work_refused(&c, 0, CAPTIONS_COUNTERS_UNSOUND, 0);

    c.settings.width = 8;
    c.settings.height = CAPTIONS_STRIPES_MAX;
    check(captions_refused(open_equal(&c, 1)) == 0, "Open: as many stripes as may be");
    check(work(&c, CAPTIONS_STRIPES_MAX - 1, BUDGET) == BUDGET, "Work: on the last of them");
    check(record.counters[CAPTIONS_STRIPES_MAX - 1] == BUDGET, "Work: counted at the end");
}

/* Stripes with so many of these ends, and in the entries that are not used this number. */
static captions_stripes stripes_with(uint32_t count, const uint32_t *ends, uint32_t unused)
{
    captions_stripes made;
    made.count = count;
    for (uint32_t k = 0; k < CAPTIONS_STRIPES_MAX; k++) {
        made.ends[k] = k < count ? ends[k] : unused;
    }
    return made;
}

/* One tall stripe, and thin ones where the letters are. */
static const uint32_t LOW[] = {23, 25, 26, 28, 29, HEIGHT};
enum { LOW_STRIPES = sizeof LOW / sizeof LOW[0] };

/* A stripe that is worked on alone: its rows are Draw's, all others stay clear. */
static void check_stripe_alone(const struct call *c, const uint8_t *drawn, uint32_t stripe)
{
    static uint8_t due[sizeof picture];
    size_t from = stripe > 0 ? LOW[stripe - 1] * WIDTH * 4u : 0;
    size_t to = LOW[stripe] * WIDTH * 4u;
    memset(due, 0, PICTURE_BYTES);
    memset(due + PICTURE_BYTES, PAINT, AFTER);
    memcpy(due + from, drawn + from, to - from);
    check(!is_all(due, PICTURE_BYTES, 0), "unequal stripes: letters are in it");
    memset(picture, PAINT, sizeof picture);
    check(open_job(c, stripes_with(LOW_STRIPES, LOW, 0)) == GREETING_LETTERS * 9,
          "unequal stripes: Open answers T");
    check(work(c, stripe, UINT32_MAX) == GREETING_LETTERS * 9, "unequal stripes: Work does all");
    check(memcmp(picture, due, sizeof picture) == 0, "unequal stripes: on the stripe's rows alone");
    check(record.counters[stripe] == GREETING_LETTERS * 9, "unequal stripes: Work counts");
}

static void check_unequal_stripes(void)
{
    static uint8_t drawn[sizeof picture];
    struct call c = good_call();
    c.settings.default_color = 0xFFEE1190; /* translucent, so that the order of strokes shows */
    draw(&c);
    memcpy(drawn, picture, sizeof picture);
    for (uint32_t stripe = 0; stripe < LOW_STRIPES; stripe++) {
        check_stripe_alone(&c, drawn, stripe);
    }
    memset(picture, PAINT, sizeof picture);
    open_job(&c, stripes_with(LOW_STRIPES, LOW, 0));
    for (uint32_t stripe = LOW_STRIPES; stripe-- > 0;) {
        check(finish(&c, stripe), "unequal stripes: Work is accepted, from the lowest up");
    }
    check(memcmp(picture, drawn, PICTURE_BYTES) == 0, "unequal stripes: all make what Draw leaves");
    check_work_refused(&c, LOW_STRIPES, CAPTIONS_NO_SUCH_STRIPE, 0);
    check_work_refused(&c, 1u << 8, CAPTIONS_NO_SUCH_STRIPE, 0);
    check_work_refused(&c, 1u << 31, CAPTIONS_NO_SUCH_STRIPE, 0);
    check_work_refused(&c, UINT32_MAX, CAPTIONS_NO_SUCH_STRIPE, 0);
}

/* Entries that are not used: Open writes zeros there, Work leaves what there is. */
static void check_unused_entries(void)
{
    static uint8_t due[sizeof picture];
    static const uint32_t junk[] = {1, 7, HEIGHT, HEIGHT + 1, UINT32_MAX};
    struct call c = good_call();
    open_job(&c, stripes_with(LOW_STRIPES, LOW, 0));
    captions_record opened = record;
    work(&c, 4, BUDGET);
    captions_record worked = record;
    memcpy(due, picture, sizeof picture);
    for (size_t i = 0; i < sizeof junk / sizeof junk[0]; i++) {
        captions_stripes stripes = stripes_with(LOW_STRIPES, LOW, junk[i]);
        memset(&record, PAINT, sizeof record);
        check(open_job(&c, stripes) == GREETING_LETTERS * 9, "unused entries: Open is accepted");
        check(memcmp(&record, &opened, sizeof record) == 0, "unused entries: its record has 0");
        memcpy(record.ends, stripes.ends, sizeof record.ends);
        check(work(&c, 4, BUDGET) == BUDGET, "unused entries: Work is accepted");
        check(memcmp(picture, due, sizeof picture) == 0, "unused entries: the picture is the same");
        check(memcmp(record.ends, stripes.ends, sizeof record.ends) == 0, "unused entries: stay");
        check(record.count == LOW_STRIPES, "unused entries: the count stays");
        check(memcmp(record.counters, worked.counters, sizeof record.counters) == 0,
              "unused entries: the counters are the same");
        check_work_refused(&c, LOW_STRIPES, CAPTIONS_NO_SUCH_STRIPE, 0);
    }
}

/* Stripes that do not fit: 13 at Open and at Work, after 11, and before the tape and 14. */
static void check_unfit(struct call c, captions_stripes stripes)
{
    static const uint8_t faulty[] = {CAPTIONS_END};
    check_open_refused(&c, stripes, CAPTIONS_STRIPES_UNFIT, 0);
    new_record(stripes);
    check_work_refused(&c, 0, CAPTIONS_STRIPES_UNFIT, 0);
    c.tape = faulty;
    c.tape_len = sizeof faulty;
    check_open_refused(&c, stripes, CAPTIONS_STRIPES_UNFIT, 0);
    new_record(stripes);
    memset(record.counters, PAINT, sizeof record.counters);
    check_work_refused(&c, UINT32_MAX, CAPTIONS_STRIPES_UNFIT, 0);
    c.workspace_len = CAPTIONS_WORKSPACE_MIN - 1;
    check_open_refused(&c, stripes, CAPTIONS_WORKSPACE_TOO_SHORT, 0);
    new_record(stripes);
    check_work_refused(&c, 0, CAPTIONS_WORKSPACE_TOO_SHORT, 0);
}

/* Each way to break the rule. */
static void check_stripes_refusals(void)
{
    static const struct {
        uint32_t count;
        uint32_t ends[3];
    } unfit[] = {
        {0, {HEIGHT, 0, 0}}, {1, {0, HEIGHT, 0}}, {1, {HEIGHT - 1, HEIGHT, 0}},
        {1, {HEIGHT + 1, HEIGHT, 0}}, {2, {0, HEIGHT, 0}}, {2, {HEIGHT, HEIGHT, 0}},
        {2, {7, HEIGHT - 1, HEIGHT}}, {2, {HEIGHT + 1, HEIGHT, 0}}, {2, {HEIGHT, HEIGHT + 1, 0}},
        {3, {7, 7, HEIGHT}}, {3, {8, 7, HEIGHT}}, {3, {0, 7, HEIGHT}},
        {3, {7, UINT32_MAX, HEIGHT}}, {3, {7, HEIGHT, 0}}, {3, {7, HEIGHT, HEIGHT}}};
    struct call c = good_call();
    for (size_t i = 0; i < sizeof unfit / sizeof unfit[0]; i++) {
        check_unfit(c, stripes_with(unfit[i].count, unfit[i].ends, 0));
        check_unfit(c, stripes_with(unfit[i].count, unfit[i].ends, HEIGHT));
    }
    check_unfit(c, captions_stripes_of_height(HEIGHT, 0));
    check_unfit(c, captions_stripes_of_height(HEIGHT - 1, STRIPE_HEIGHT));
    check_unfit(c, captions_stripes_of_height(0, STRIPE_HEIGHT));
}

/* As many stripes as may be, one of them tall; and counts above that, whatever the entries are. */
static void check_most_stripes(void)
{
    static const uint32_t above[] = {CAPTIONS_STRIPES_MAX + 1, 2 * CAPTIONS_STRIPES_MAX,
                                     UINT32_MAX};
    struct call c = good_call();
    c.settings.width = 8;
    c.settings.height = CAPTIONS_STRIPES_MAX;
    captions_stripes stripes = captions_stripes_of_height(CAPTIONS_STRIPES_MAX, 1);
    for (size_t i = 0; i < sizeof above / sizeof above[0]; i++) {
        stripes.count = above[i];
        check_unfit(c, stripes);
    }
    c.settings.height = 2 * CAPTIONS_STRIPES_MAX;
    stripes.count = CAPTIONS_STRIPES_MAX;
    for (uint32_t k = 0; k < CAPTIONS_STRIPES_MAX; k++) {
        stripes.ends[k] = CAPTIONS_STRIPES_MAX + 1 + k;
    }
    check(captions_refused(open_job(&c, stripes)) == 0, "Open: 64 stripes, the first tall");
    check(work(&c, CAPTIONS_STRIPES_MAX - 1, BUDGET) == BUDGET, "Work: on the last of them");
    check_work_refused(&c, CAPTIONS_STRIPES_MAX, CAPTIONS_NO_SUCH_STRIPE, 0);
    stripes.ends[CAPTIONS_STRIPES_MAX - 1]++;
    check_unfit(c, stripes);
    stripes.ends[CAPTIONS_STRIPES_MAX - 1]--;
    stripes.ends[CAPTIONS_STRIPES_MAX - 2]++;
    check_unfit(c, stripes);
}

/* What stands behind the entries, in a record the first counter, is not taken for one more. */
static void check_behind_stripes(void)
{
    struct {
        captions_stripes stripes;
        uint32_t next;
    } beside;
    struct call c = good_call();
    c.settings.width = 8;
    c.settings.height = CAPTIONS_STRIPES_MAX + 1;
    beside.stripes = captions_stripes_of_height(c.settings.height, 1);
    beside.next = c.settings.height;
    check_answer("Open, 65 stripes",
                 captions_open(&c.settings, c.tape, c.tape_len, c.workspace, c.workspace_len,
                               c.picture, c.picture_len, &beside.stripes, &record),
                 CAPTIONS_STRIPES_UNFIT, 0);
    new_record(beside.stripes);
    record.counters[0] = beside.next;
    check_work_refused(&c, 0, CAPTIONS_STRIPES_UNFIT, 0);
}

/* A picture without rows has no stripe, so that the record of zeros is its own. */
static void check_no_stripes(void)
{
    static const uint32_t ends[] = {0, 1};
    struct call c = good_call();
    c.settings.height = 0;
    check(open_job(&c, stripes_with(0, ends, 9)) == GREETING_LETTERS * 9, "no rows: no stripe");
    check(is_all(&record, sizeof record, 0), "no rows: the record is of zeros");
    check_work_refused(&c, 0, CAPTIONS_NO_SUCH_STRIPE, 0);
    record.ends[0] = 9;
    check_work_refused(&c, 0, CAPTIONS_NO_SUCH_STRIPE, 0);
    record.counters[0] = 1;
    check_work_refused(&c, 0, CAPTIONS_COUNTERS_UNSOUND, 0);
    check_unfit(c, stripes_with(1, ends, 0));
    check_unfit(c, stripes_with(1, ends + 1, 0));
    check_unfit(c, stripes_with(2, ends, 0));
    check_unfit(c, captions_stripes_of_height(0, 0));
    c.settings.height = HEIGHT;
    memset(&record, 0, sizeof record);
    check_work_refused(&c, 0, CAPTIONS_STRIPES_UNFIT, 0);
}

/* Which counters are past the last stripe is for the count to say. */
static void check_counters_of_counts(void)
{
    struct call c = good_call();
    for (uint32_t k = 0; k < CAPTIONS_STRIPES_MAX; k++) {
        new_record(stripes_with(LOW_STRIPES, LOW, HEIGHT + 1));
        record.counters[k] = 1;
        if (k < LOW_STRIPES) {
            check(work(&c, k, BUDGET) == BUDGET, "Work: a counter of a stripe");
            record.counters[k] = GREETING_LETTERS * 9 + 1;
        }
        check_work_refused(&c, 0, CAPTIONS_COUNTERS_UNSOUND, 0);
        check_work_refused(&c, LOW_STRIPES, CAPTIONS_COUNTERS_UNSOUND, 0);
    }
}

/* Whether row y is in stripe y / stripe_height, for each row, and the other entries are 0. */
static int is_equal_cut(uint32_t height, uint32_t stripe_height)
{
    captions_stripes made = captions_stripes_of_height(height, stripe_height);
    uint32_t row = 0;
    for (uint32_t stripe = 0; stripe < CAPTIONS_STRIPES_MAX; stripe++) {
        uint32_t first = row;
        while (row < height && row / stripe_height == stripe) {
            row++;
        }
        if (made.ends[stripe] != (row > first ? row : 0)) {
            return 0;
        }
    }
    return made.count == ((uint64_t)height + stripe_height - 1) / stripe_height;
}

static void check_equal_stripes(void)
{
    static const uint32_t heights[] = {0, 1, 2, 63, 64, 65, 127, 128, 129, 360, CAPTIONS_SIDE_MAX};
    static const uint32_t large[] = {1u << 16, (1u << 26) - 1, 1u << 26, 1u << 31,
                                     UINT32_MAX - 1, UINT32_MAX};
    for (size_t i = 0; i < sizeof heights / sizeof heights[0]; i++) {
        int same = 1;
        for (uint32_t h = 1; h <= heights[i] + 2; h++) {
            same = same && is_equal_cut(heights[i], h);
        }
        for (size_t j = 0; j < sizeof large / sizeof large[0]; j++) {
            same = same && is_equal_cut(heights[i], large[j]);
        }
        check(same, "equal stripes: row y is in stripe y / h");
        captions_stripes none = captions_stripes_of_height(heights[i], 0);
        check(none.count == 1 && is_all(none.ends, sizeof none.ends, 0), "equal stripes: h is 0");
    }
    captions_stripes most = captions_stripes_of_height(UINT32_MAX, 1);
    check(most.count == UINT32_MAX && most.ends[63] == 64, "equal stripes: as many as can be");
    most = captions_stripes_of_height(UINT32_MAX, 1u << 31);
    check(most.count == 2 && most.ends[0] == 1u << 31 && most.ends[1] == UINT32_MAX
              && most.ends[2] == 0, "equal stripes: no sum wraps");
}

int main(void)
{
    check_wrap();
    check_commands();
    check_usual_settings();
    check_draw();
    check_alignments();
    check_glyph_modes();
    check_lines_of_colors();
    check_side_margins();
    check_slants();
    check_outline_caps();
    check_letters_without_ink();
    check_job(good_call());
    check_job(house_call());
    check_counters_of_caps();
    check_stored();
    check_empty();
    check_tape_refusals();
    check_setting_refusals();
    check_length_refusals();
    check_job_refusals();
    check_unequal_stripes();
    check_unused_entries();
    check_stripes_refusals();
    check_most_stripes();
    check_behind_stripes();
    check_no_stripes();
    check_counters_of_counts();
    check_equal_stripes();
    if (failed > 0) {
        fprintf(stderr, "%d checks failed\n", failed);
        return 1;
    }
    printf("%d checks passed\n", passed);
    return 0;
}
