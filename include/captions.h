/*
 * Bitmap captions: the four functions of libcaptions.a, for C99 and C++11.
 *
 * A cue comes in as a tape of bytes. captions_wrap breaks it into lines and captions_draw draws it
 * whole; captions_open and captions_work draw it in stripes, a budget of strokes at a time.
 *
 * Every call is total: it takes any numbers, bytes and lengths, and returns. A length is that of
 * the buffer before it, in bytes; one of length 0 may be NULL, settings, stripes and a record may
 * not. What one call is lent must not overlap. Settings, stripes and a record are aligned as a
 * uint32_t is; buffers need no alignment. No call keeps anything, allocates or uses errno, so any
 * number of threads may call, each with its own buffers. A call needs at most CAPTIONS_STACK_BYTES
 * of stack.
 *
 * The platform. x86-64 Linux, with the System V calling convention. The numbers of settings,
 * stripes and records are in the machine's byte order, little endian.
 *
 * Answers. An answer has two halves of 32 bits. The upper half is 0 and the lower is what the call
 * answers; or the upper is a refusal's number and the lower its place. See captions_refused,
 * captions_answer and captions_place.
 *
 * The tape. At most CAPTIONS_TAPE_MAX bytes: commands, each a byte of captions_command with its
 * operands, high byte first. The outer list ends with the tape, every other list and a voice's name
 * with CAPTIONS_END.
 *
 * The workspace. At least CAPTIONS_WORKSPACE_MIN bytes. Nothing depends on what it held. After the
 * refusals 8 to 11 and 13 it is as it was; else, but for the lines of captions_wrap, it may hold
 * anything.
 *
 * The picture. A buffer that begins with width * height * 4 bytes: rows from the top, in each the
 * pixels from the left, of each the bytes red, green, blue, alpha. The bytes after the picture
 * never change, and a refused call changes no byte of the buffer.
 *
 * Stripes. The picture's rows from the top, in at most CAPTIONS_STRIPES_MAX parts of any heights.
 * Each has an end, which is the first row below it: a stripe has the rows from the end of the one
 * before it, or from row 0, up to its own end, not included. So the ends rise strictly from a first
 * one above 0, and the last is the height; a picture of height 0 has no stripe.
 *
 * Strokes. A letter on a line that has ink is one stroke, and 8 more for each pixel of its outline,
 * up to outline_cap. A letter without ink has none: spaces and controls, code points 00 to 20 and
 * 7F to A0, and AD, in every style. A cue's strokes have one order; T is how many they are, and
 * depends on the tape, the outline and its cap alone.
 */
#ifndef CAPTIONS_H
#define CAPTIONS_H

#include <stddef.h>
#include <stdint.h>

#ifdef __cplusplus
extern "C" {
#endif

/*
 * The number of this interface: what is declared here, and what it means. It grows by one with each
 * change of that, an addition too. A program is linked with the library of its header's version.
 * Until version 3 letters without ink had strokes too, so that a record of then is not to be worked
 * on with this library: its job is opened anew. Until version 4 settings ended with glyph_mode;
 * this library reads three numbers more, so that a program of then is compiled anew. They were 8, 2
 * and 2 then, and where they still are, a record made with version 3 stays good. Until version 5
 * stripes were of one height, but for the last: Open took that height, and a record had it first
 * and then the counters. A program of then is compiled anew. A record of then becomes one of now:
 * its count and ends are those that captions_stripes_of_height gives for the picture's height and
 * that one, and its counters stay.
 */
#define CAPTIONS_VERSION 5

#define CAPTIONS_TAPE_MAX 16384       /* bytes of a tape */
#define CAPTIONS_WORKSPACE_MIN 65536  /* bytes of a workspace */
#define CAPTIONS_SIDE_MAX 4096        /* pixels of a picture's width, and of its height */
#define CAPTIONS_LINE_HEIGHT_MAX 1024 /* pixels from one line to the next */
#define CAPTIONS_SIDE_MARGIN_MAX 255  /* pixels between a line and the side that it is aligned to */
#define CAPTIONS_SLANT_MAX 8          /* eighths of a cell's width that italic leans over a cell */
#define CAPTIONS_OUTLINE_CAP_MAX 4    /* pixels that the widest outline may have */
#define CAPTIONS_COLUMNS_MAX 4096     /* the largest column limit; the smallest is 1 */
#define CAPTIONS_LETTERS_MAX 4096     /* letters of a cue; breaks and a voice's ": " count too */
#define CAPTIONS_STRIPES_MAX 64       /* stripes of a picture */
#define CAPTIONS_STACK_BYTES 32768    /* of stack that a call needs: twice what was measured */

/* The first byte of each of a tape's commands. */
enum captions_command {
    CAPTIONS_END = 0x00,      /* ends a list or a name */
    CAPTIONS_EMPTY = 0x01,    /* an empty text */
    CAPTIONS_LETTER_1 = 0x02, /* a letter: its code point in 1 byte */
    CAPTIONS_LETTER_2 = 0x03, /* a letter: its code point in 2 bytes */
    CAPTIONS_LETTER_3 = 0x04, /* a letter: its code point in 3 bytes */
    CAPTIONS_BREAK = 0x05,    /* a line break */
    CAPTIONS_BOLD = 0x06,     /* a list follows */
    CAPTIONS_ITALIC = 0x07,   /* a list follows */
    CAPTIONS_COLOR = 0x08,    /* red, green and blue, a byte each, and then a list */
    CAPTIONS_VOICE = 0x09,    /* its name, letters up to a CAPTIONS_END, and then a list */
    CAPTIONS_GROUP = 0x0A,    /* a list in the style around it */
    CAPTIONS_TIME_MARK = 0x0B /* draws nothing */
};

/*
 * Where lines stand between the picture's sides. At a side they stay side_margin pixels from it,
 * and may go beyond the other: a margin takes no column from a line. At the center there is none.
 */
enum captions_align {
    CAPTIONS_ALIGN_CENTER = 0,
    CAPTIONS_ALIGN_LEFT = 1,
    CAPTIONS_ALIGN_START = 2, /* as LEFT */
    CAPTIONS_ALIGN_RIGHT = 3,
    CAPTIONS_ALIGN_END = 4 /* as RIGHT */
};

/* How letters are drawn that the font, which ends at U+00FF, has no glyph for. */
enum captions_glyph_mode {
    CAPTIONS_GLYPHS_KEPT = 0,    /* all as boxes */
    CAPTIONS_GLYPHS_REPLACED = 1 /* U+2018 and U+2019 as ', U+201C and U+201D as ", U+2013 and
                                    U+2014 as -, the others as boxes; lines stay as they are */
};

/* How a cue is drawn. A color is 0xRRGGBBAA. */
typedef struct {
    uint32_t width;         /* pixels: at most CAPTIONS_SIDE_MAX; 0 is allowed */
    uint32_t height;        /* pixels: at most CAPTIONS_SIDE_MAX; 0 is allowed */
    uint32_t default_color; /* of letters outside every color list */
    uint32_t outline_color;
    uint32_t line_height;   /* pixels: at most CAPTIONS_LINE_HEIGHT_MAX; under 16 it counts as 16 */
    uint32_t bottom_margin; /* pixels from the lowest row up: any number */
    uint32_t outline;       /* pixels: any number; over outline_cap it counts as outline_cap */
    uint32_t alignment;     /* CAPTIONS_ALIGN_CENTER to CAPTIONS_ALIGN_END */
    uint32_t glyph_mode;    /* CAPTIONS_GLYPHS_KEPT or CAPTIONS_GLYPHS_REPLACED */
    uint32_t side_margin;   /* pixels: at most CAPTIONS_SIDE_MARGIN_MAX */
    uint32_t slant;         /* eighths of a cell's width: at most CAPTIONS_SLANT_MAX; 0: upright */
    uint32_t outline_cap;   /* pixels: at most CAPTIONS_OUTLINE_CAP_MAX; 0 is no outline */
} captions_settings;

/* How a picture is cut into stripes, as Open takes it. See captions_stripes_of_height. */
typedef struct {
    uint32_t count;                      /* of stripes: at most CAPTIONS_STRIPES_MAX */
    uint32_t ends[CAPTIONS_STRIPES_MAX]; /* of each, from the top; from count on never read */
} captions_stripes;

/*
 * How far a job is: what is stored with its picture, so that any process can go on with it. Of each
 * stripe, from the top, it has the end, and counts the strokes that are done.
 */
typedef struct {
    uint32_t count;                          /* of stripes, as Open was handed it */
    uint32_t ends[CAPTIONS_STRIPES_MAX];     /* Open leaves 0 from count on; Work never reads it */
    uint32_t counters[CAPTIONS_STRIPES_MAX]; /* each at most T, and from count on 0 */
} captions_record;

/* Compiles only where the structs are numbers in a row, without padding. */
typedef char captions_settings_are_12_numbers[sizeof(captions_settings) == 48 ? 1 : -1];
typedef char captions_stripes_are_65_numbers[sizeof(captions_stripes) == 260 ? 1 : -1];
typedef char captions_record_is_129_numbers[sizeof(captions_record) == 516 ? 1 : -1];

/*
 * Usual settings: white letters with a black outline of a pixel, opaque; lines at the center; no
 * letter replaced; and the side margin, slant and outline cap that there were before version 4.
 */
static inline captions_settings captions_settings_usual(uint32_t width, uint32_t height)
{
    captions_settings usual;
    usual.width = width;
    usual.height = height;
    usual.default_color = 0xFFFFFFFFu;
    usual.outline_color = 0x000000FFu;
    usual.line_height = 20;
    usual.bottom_margin = 24;
    usual.outline = 1;
    usual.alignment = CAPTIONS_ALIGN_CENTER;
    usual.glyph_mode = CAPTIONS_GLYPHS_KEPT;
    usual.side_margin = 8;
    usual.slant = 2;
    usual.outline_cap = 2;
    return usual;
}

/*
 * Stripes of one height for a picture of this height; the last may be lower. A stripe height of 0
 * gives one stripe that ends at row 0; one that makes more than CAPTIONS_STRIPES_MAX stripes gives
 * their count, and as many ends as there is room for. Open refuses both.
 */
static inline captions_stripes captions_stripes_of_height(uint32_t height, uint32_t stripe_height)
{
    captions_stripes made;
    uint32_t end = 0;
    made.count = 1;
    if (stripe_height > 0) {
        made.count = height / stripe_height + (height % stripe_height > 0 ? 1 : 0);
    }
    for (uint32_t stripe = 0; stripe < CAPTIONS_STRIPES_MAX; stripe++) {
        uint32_t left = height - end; /* so that no sum passes the height */
        end += stripe_height < left ? stripe_height : left;
        made.ends[stripe] = stripe < made.count ? end : 0;
    }
    return made;
}

/*
 * Why a call was refused. The place of 1 to 7 is the offset in the tape of the command at fault,
 * or the tape's length for a 3 at the tape's end; that of 8 to 14 is 0.
 *
 * They are looked for in the order 8, 9, 10, 11, 13, then the tape from its start, in each command
 * 1, 7, 5, 2, 4, 6, 3, and then 14, 12. The first that is found is the answer. A call checks what
 * it has: captions_wrap 8, 10, 11 and the tape, captions_draw 9 too, captions_open also 13, and
 * captions_work all.
 */
enum captions_refusal {
    /* The command is over 0B. Place: the command's. */
    CAPTIONS_UNKNOWN_COMMAND = 1,
    /* The tape ends before the command's operands do. Place: the command's. */
    CAPTIONS_OPERANDS_MISSING = 2,
    /* A 00 in the outer list; or the tape ends in a list or a name. Place: the 00's;
       the tape's length. */
    CAPTIONS_UNBALANCED = 3,
    /* The code point is a surrogate or over 10FFFF. Place: the letter's. */
    CAPTIONS_NOT_A_SCALAR = 4,
    /* A list inside sixteen others. Place: its command's. The outer list is not counted. */
    CAPTIONS_TOO_DEEP = 5,
    /* More than 4096 letters. Place: that of the command with one too many. That is a letter,
       a break, or the 00 after a voice's name, which adds its ": ". */
    CAPTIONS_TOO_MANY_LETTERS = 6,
    /* In a voice's name, a command that is none of 00, 02, 03, 04. Place: the command's. */
    CAPTIONS_NOT_IN_A_NAME = 7,
    /* A setting, or Wrap's column limit, is out of its range. Place: 0, as for all below. */
    CAPTIONS_OUT_OF_RANGE = 8,
    /* The picture's buffer has under width * height * 4 bytes. */
    CAPTIONS_PICTURE_TOO_SHORT = 9,
    /* The tape has more than 16384 bytes. */
    CAPTIONS_TAPE_TOO_LONG = 10,
    /* The workspace has under 65536 bytes. */
    CAPTIONS_WORKSPACE_TOO_SHORT = 11,
    /* The picture has no such stripe. Its number is not below the record's count. */
    CAPTIONS_NO_SUCH_STRIPE = 12,
    /* More than 64 stripes, or ends that do not rise strictly from above 0 to the height. They are
       Open's own, or stand in Work's record. A picture of height 0 has no stripe, and every other
       has at least one. */
    CAPTIONS_STRIPES_UNFIT = 13,
    /* A counter is over the number of strokes, or not 0 past the last stripe. The counter is any of
       the record's 64, the number T, and the last stripe that of the record's count. */
    CAPTIONS_COUNTERS_UNSOUND = 14
};

/* The refusal's number, or 0 where the call was accepted. */
static inline uint32_t captions_refused(uint64_t answer)
{
    return (uint32_t)(answer >> 32);
}

/* What an accepted call answers. */
static inline uint32_t captions_answer(uint64_t answer)
{
    return (uint32_t)(answer & 0xFFFFFFFFu);
}

/* The place of a refusal. */
static inline uint32_t captions_place(uint64_t answer)
{
    return (uint32_t)(answer & 0xFFFFFFFFu);
}

/*
 * Wrap: breaks a tape's letters into lines of at most column_limit columns, from 1 to
 * CAPTIONS_COLUMNS_MAX, and answers how many lines there are.
 *
 * The workspace then begins with two numbers for each line, how many letters it has and how many
 * columns they take; then come the numbers of the letters on lines, line after line. Each number
 * has two bytes, high byte first. Letters are counted from 0 as the tape has them; breaks and a
 * voice's ": " are counted too.
 *
 * Letters of unlike style, of which their color is part, are never one word. Wrap takes no default
 * color and reckons with 0xFFFFFFFF: wherever the settings have another, the lines that Draw makes
 * may be unlike these. The smallest case is the tape 02 58 02 20 02 41 08 FF FF FF 02 42 00 at 3
 * columns: Wrap makes the lines X and AB, Draw with the default color 0x00FF00FF makes X A and B.
 */
uint64_t captions_wrap(const uint8_t *tape, size_t tape_len,
                       uint8_t *workspace, size_t workspace_len,
                       uint32_t column_limit);

/*
 * Draw: clears the picture, draws a tape's cue on it, and answers T. The column limit of its lines
 * is width / 8, or 1 where that is 0. A refusal leaves the picture.
 */
uint64_t captions_draw(const captions_settings *settings,
                       const uint8_t *tape, size_t tape_len,
                       uint8_t *workspace, size_t workspace_len,
                       uint8_t *picture, size_t picture_len);

/*
 * Open: begins a job in these stripes. Clears the picture and answers T. The record is written
 * only: it then holds the count and the ends of the stripes, 0 in the entries that are not used,
 * and 64 counters of 0.
 *
 * A refusal leaves the picture, and writes zeros to all of the record.
 */
uint64_t captions_open(const captions_settings *settings,
                       const uint8_t *tape, size_t tape_len,
                       uint8_t *workspace, size_t workspace_len,
                       uint8_t *picture, size_t picture_len,
                       const captions_stripes *stripes,
                       captions_record *record);

/*
 * Work: does the next strokes on the rows of a stripe, counted from 0: as many as the budget, any
 * number, or as are left. Answers how many they were; the stripe's counter grows by that, and
 * nothing else of the record or of the picture changes; entries that are not used stay too.
 *
 * Settings and tape are those of Open, picture and record as the last call left them, in this
 * process or in another. Once every stripe's counter is T, the picture is what Draw leaves. With a
 * budget of 0 it only checks what it is handed. A refusal leaves picture and record.
 */
uint64_t captions_work(const captions_settings *settings,
                       const uint8_t *tape, size_t tape_len,
                       uint8_t *workspace, size_t workspace_len,
                       uint8_t *picture, size_t picture_len,
                       captions_record *record,
                       uint32_t stripe, uint32_t budget);

#ifdef __cplusplus
}
#endif

#endif
