/*
 * How much stack a call uses, held to CAPTIONS_STACK_BYTES: each is made on a thread whose stack
 * was painted, and the deepest byte that lost its paint tells. The tapes are the most demanding
 * ones: lists as deep as may be around as many letters as fit.
 */
#define _POSIX_C_SOURCE 200809L
#include "captions.h"

#include <pthread.h>
#include <stdio.h>
#include <stdlib.h>
#include <string.h>

enum {
    DEPTH = 16,
    LETTERS = CAPTIONS_LETTERS_MAX - 3 * DEPTH, /* a voice adds its name and two letters */
    SIDE = 640,
    STRIPE_HEIGHT = SIDE / CAPTIONS_STRIPES_MAX,
    BUDGET = 5000,
    PAGE = 4096,
    STACK = 1 << 20,
    LEAST = 1000, /* what every call uses, or else it was not measured */
    PAINT = 0xA5
};

static uint8_t *stack;
static const uint8_t *entered; /* where the thread's function stands in its stack */

static uint8_t tape[CAPTIONS_TAPE_MAX];
static size_t tape_len;
static uint8_t workspace[CAPTIONS_WORKSPACE_MIN];
static uint8_t picture[SIDE * SIDE * 4];
static captions_settings settings;
static captions_stripes stripes;
static captions_record record;
static uint32_t column_limit;
static uint64_t answer;

static void call_wrap(void)
{
    answer = captions_wrap(tape, tape_len, workspace, sizeof workspace, column_limit);
}

static void call_draw(void)
{
    answer = captions_draw(&settings, tape, tape_len, workspace, sizeof workspace,
                           picture, sizeof picture);
}

static void call_open(void)
{
    answer = captions_open(&settings, tape, tape_len, workspace, sizeof workspace,
                           picture, sizeof picture, &stripes, &record);
}

static void call_work(void)
{
    answer = captions_work(&settings, tape, tape_len, workspace, sizeof workspace,
                           picture, sizeof picture, &record, CAPTIONS_STRIPES_MAX / 2, BUDGET);
}

struct call {
    const char *name;
    void (*make)(void);
    size_t most; /* bytes of stack, of the calls so far */
};

static struct call calls[] = {
    {"captions_wrap", call_wrap, 0},
    {"captions_draw", call_draw, 0},
    {"captions_open", call_open, 0},
    {"captions_work", call_work, 0},
};
enum { CALLS = sizeof calls / sizeof calls[0] };

static void *run(void *given)
{
    volatile uint8_t here = 0;
    entered = (const uint8_t *)(uintptr_t)&here;
    ((const struct call *)given)->make();
    return NULL;
}

static void stop(const char *why)
{
    fprintf(stderr, "%s\n", why);
    exit(1);
}

/* Makes a call on a painted stack. */
static void measure(struct call *call)
{
    pthread_attr_t attributes;
    pthread_t thread;
    memset(stack, PAINT, STACK);
    if (pthread_attr_init(&attributes) != 0
        || pthread_attr_setstack(&attributes, stack, STACK) != 0
        || pthread_create(&thread, &attributes, run, call) != 0
        || pthread_join(thread, NULL) != 0) {
        stop("no thread");
    }
    pthread_attr_destroy(&attributes);
    if (captions_refused(answer) != 0) {
        stop("a call was refused");
    }
    const uint8_t *deepest = stack;
    while (*deepest == PAINT) {
        deepest++;
    }
    size_t used = (size_t)(entered - deepest);
    call->most = used > call->most ? used : call->most;
}

static void put(unsigned byte)
{
    tape[tape_len++] = (uint8_t)byte;
}

static void put_opener(unsigned command)
{
    put(command);
    if (command == CAPTIONS_COLOR) {
        put(0x20);
        put(0x40);
        put((unsigned)tape_len & 0xFF);
    }
    if (command == CAPTIONS_VOICE) {
        put(CAPTIONS_LETTER_1);
        put('V');
        put(CAPTIONS_END);
    }
}

/* Lists in lists, opened by these commands in turn, and then letters, words and others. */
static void make_tape(const uint8_t *openers, size_t count)
{
    tape_len = 0;
    for (size_t i = 0; i < DEPTH; i++) {
        put_opener(openers[i % count]);
    }
    for (unsigned i = 0; i < LETTERS; i++) {
        put(i % 3 == 0 ? CAPTIONS_LETTER_2 : CAPTIONS_LETTER_1);
        if (i % 3 == 0) {
            put(0x20);
        }
        put(i % 7 == 3 ? ' ' : '!' + i % 90);
    }
    for (size_t i = 0; i < DEPTH; i++) {
        put(CAPTIONS_END);
    }
}

static void measure_tape(uint32_t width)
{
    settings = captions_settings_usual(width, SIDE);
    settings.default_color = 0x11223380;
    settings.outline_color = 0x44556677;
    settings.outline = CAPTIONS_OUTLINE_CAP_MAX;
    settings.slant = CAPTIONS_SLANT_MAX;
    settings.outline_cap = CAPTIONS_OUTLINE_CAP_MAX;
    stripes = captions_stripes_of_height(SIDE, STRIPE_HEIGHT);
    column_limit = width / 8;
    for (size_t i = 0; i < CALLS; i++) {
        measure(&calls[i]);
    }
}

int main(void)
{
    static const uint8_t openers[] = {CAPTIONS_BOLD, CAPTIONS_ITALIC, CAPTIONS_COLOR,
                                      CAPTIONS_VOICE, CAPTIONS_GROUP};
    void *memory;
    if (posix_memalign(&memory, PAGE, STACK) != 0) {
        stop("no memory");
    }
    stack = (uint8_t *)memory;
    for (size_t first = 0; first < sizeof openers; first++) {
        make_tape(openers + first, 1);
        measure_tape(SIDE);
        make_tape(openers, sizeof openers - first);
        measure_tape(8);
    }
    int wrong = 0;
    for (size_t i = 0; i < CALLS; i++) {
        printf("%s %u\n", calls[i].name, (unsigned)calls[i].most);
        wrong = wrong || calls[i].most < LEAST || calls[i].most > CAPTIONS_STACK_BYTES;
    }
    return wrong;
}
