/* The checked boundary of libtuppence.so, tried from C: boundary MODEL.rnn

   - 10,000 calls with one or two bad pointers or lengths: each is refused with a number from 101 to 104, and no byte of
     what was lent changes.
   - A take gives the same samples whatever the caller's rounding mode and trapped exceptions are, and leaves them
     unchanged.
   - How much stack an opening, a take and a feed need together.

   tools/bindings.sh builds it with the address and undefined-behaviour sanitizers and runs it. */
#define _GNU_SOURCE
#include "tuppence.h"

#include <fenv.h>
#include <pthread.h>
#include <stdio.h>
#include <stdlib.h>
#include <string.h>

enum { CALLS = 10000, PIECE = 1000, FRAME = 480, FRAMES = 9, BYTES = 4 * PIECE, STACK = 1 << 20 };
enum { NULL_POINTER = 101, MISALIGNED, TOO_LONG, OVERLAP };
enum { TRAPS = FE_DIVBYZERO | FE_INVALID | FE_OVERFLOW | FE_UNDERFLOW | FE_INEXACT };

/* All that a call is lent. */
struct world {
    float store[TUPPENCE_STORE];
    uint32_t record[TUPPENCE_RECORD];
    float sound[PIECE];
    float out[FRAME * FRAMES];
    float answers[3 * FRAMES];
    uint8_t bytes[BYTES];
    uint8_t cleaned[2 * FRAME * FRAMES];
    uint8_t records[8 * FRAMES];
};

static struct world world, before;
static uint8_t model[1 << 20];
static size_t model_size;
static uint64_t seed = 12;

static uint32_t random_below(uint32_t n)
{
    seed ^= seed << 13;
    seed ^= seed >> 7;
    seed ^= seed << 17;
    return (uint32_t)(seed >> 33) % n;
}

static void fail(const char *what, uint32_t number, uint32_t wanted)
{
    fprintf(stderr, "%s: returned %lu, expected %lu\n", what, (unsigned long)number, (unsigned long)wanted);
    exit(1);
}

static void expect(const char *what, uint32_t number, uint32_t wanted)
{
    if (number != wanted)
        fail(what, number, wanted);
}

static void fill(void)
{
    memset(&world, 0, sizeof world);
    for (int i = 0; i < PIECE; i++)
        world.sound[i] = (float)random_below(8000) - 4000.0f;
    for (int i = 0; i < BYTES; i++)
        world.bytes[i] = (uint8_t)random_below(256);
}

/* An opening of bench 0. */
typedef uint32_t opening(uint32_t *, size_t, float *, size_t, uint32_t, const uint8_t *, size_t);

static uint32_t open_by(opening *open)
{
    return open(world.record, TUPPENCE_RECORD, world.store, TUPPENCE_STORE, 0, model, model_size);
}

static uint32_t take(void)
{
    return tuppence_take(world.record, TUPPENCE_RECORD, world.store, TUPPENCE_STORE, 0, world.sound, PIECE,
        model, model_size, world.out, FRAME * FRAMES, world.answers, 3 * FRAMES);
}

/* ---- bad calls */

/* A slice as it is passed. */
struct slice {
    void *at;
    size_t len;
    size_t align;
};

/* Makes a slice bad, and says with which number the call must be refused. */
static uint32_t damage(struct slice *s)
{
    switch (random_below(s->align > 1 ? 3 : 2)) {
    case 0:
        s->at = NULL;
        return NULL_POINTER;
    case 1:
        s->len = SIZE_MAX - random_below(1000);
        return TOO_LONG;
    default:
        s->at = (uint8_t *)s->at + 1 + random_below((uint32_t)s->align - 1);
        return MISALIGNED;
    }
}

static uint32_t call(int which, const struct slice s[9])
{
    switch (which) {
    case 0:
        return tuppence_open(s[0].at, s[0].len, s[1].at, s[1].len, 0, s[2].at, s[2].len);
    case 1:
        return tuppence_take(s[0].at, s[0].len, s[1].at, s[1].len, 0, s[3].at, s[3].len, s[2].at, s[2].len,
            s[4].at, s[4].len, s[5].at, s[5].len);
    default:
        return tuppence_feed(s[0].at, s[0].len, s[1].at, s[1].len, 0, s[6].at, s[6].len, 16, 2, 1,
            s[2].at, s[2].len, s[7].at, s[7].len, s[8].at, s[8].len, s[5].at, s[5].len);
    }
}

/* The slices of each call, in its own order. */
static const int SLICES[3][8] = {{0, 1, 2, -1}, {0, 1, 3, 2, 4, 5, -1}, {0, 1, 6, 2, 7, 8, 5, -1}};

static int count_of(int which)
{
    int count = 0;
    while (SLICES[which][count] >= 0)
        count++;
    return count;
}

static void bad_call(void)
{
    struct slice s[9] = {
        {world.record, TUPPENCE_RECORD, 4}, {world.store, TUPPENCE_STORE, 4}, {model, model_size, 1},
        {world.sound, PIECE, 4}, {world.out, FRAME * FRAMES, 4}, {world.answers, 3 * FRAMES, 4},
        {world.bytes, BYTES, 1}, {world.cleaned, 2 * FRAME * FRAMES, 1}, {world.records, 8 * FRAMES, 1},
    };
    int which = (int)random_below(3), count = count_of(which);
    const int *slices = SLICES[which];
    uint32_t wanted;
    if (random_below(3) == 0) {
        /* the record, which is written, lies within another slice; or that one within the store */
        int other = slices[1 + random_below((uint32_t)count - 1)];
        size_t to_four = (size_t)-(intptr_t)s[other].at % 4;
        s[0].at = (uint8_t *)s[other].at + to_four;
        wanted = OVERLAP;
    } else {
        wanted = 0;
        int first = (int)random_below((uint32_t)count), second = first + (int)random_below((uint32_t)(count - first));
        /* two are bad: the first one in the call's order is reported */
        if (second != first)
            damage(&s[slices[second]]);
        wanted = damage(&s[slices[first]]);
    }
    before = world;
    expect("a bad call", call(which, s), wanted);
    if (memcmp(&world, &before, sizeof world) != 0) {
        fprintf(stderr, "a refused call changed what it was lent\n");
        exit(1);
    }
}

/* ---- the caller's floating-point environment */

static void take_all(float *samples)
{
    fill();
    seed = 99;
    fill();
    expect("open", open_by(tuppence_open_crate), 0);
    for (int i = 0; i < 10; i++) {
        expect("take", take(), 0);
        memcpy(samples + i * 2 * FRAME, world.out, 2 * FRAME * sizeof(float));
    }
}

static void environments(void)
{
    static float usual[20 * FRAME], other[20 * FRAME];
    int modes[4] = {FE_TONEAREST, FE_UPWARD, FE_DOWNWARD, FE_TOWARDZERO};
    take_all(usual);
    for (int i = 0; i < 4; i++) {
        fesetround(modes[i]);
        feclearexcept(FE_ALL_EXCEPT);
        /* an invalid operation, a division by zero or an overflow would now kill this program */
        feenableexcept(TRAPS);
        take_all(other);
        int traps = fegetexcept(), mode = fegetround(), flags = fetestexcept(FE_ALL_EXCEPT);
        fedisableexcept(FE_ALL_EXCEPT);
        fesetround(FE_TONEAREST);
        expect("trapped exceptions after a call", (uint32_t)traps, TRAPS);
        expect("rounding mode after a call", (uint32_t)mode, (uint32_t)modes[i]);
        expect("flags after a call", (uint32_t)flags, 0);
        expect("samples that differ", memcmp(usual, other, sizeof usual) != 0, 0);
    }
}

/* ---- the stack */

static void *on_its_own_stack(void *nothing)
{
    expect("open", open_by(tuppence_open), 0);
    expect("take", take(), 0);
    expect("open_crate", open_by(tuppence_open_crate), 0);
    expect("feed",
        tuppence_feed(world.record, TUPPENCE_RECORD, world.store, TUPPENCE_STORE, 0, world.bytes, BYTES, 16, 2, 1,
            model, model_size, world.cleaned, 2 * FRAME * FRAMES, world.records, 8 * FRAMES, world.answers, 3 * FRAMES),
        0);
    return nothing;
}

/* How many bytes of a thread's stack were touched. */
static size_t stack_used(void)
{
    uint8_t *stack = aligned_alloc(4096, STACK);
    if (stack == NULL)
        exit(1);
    memset(stack, 0xA5, STACK);
    pthread_attr_t attributes;
    pthread_t thread;
    pthread_attr_init(&attributes);
    pthread_attr_setstack(&attributes, stack, STACK);
    fill();
    if (pthread_create(&thread, &attributes, on_its_own_stack, NULL) != 0 || pthread_join(thread, NULL) != 0)
        exit(1);
    size_t untouched = 0;
    while (untouched < STACK && stack[untouched] == 0xA5)
        untouched++;
    free(stack);
    return STACK - untouched;
}

int main(int count, char **words)
{
    FILE *file = count == 2 ? fopen(words[1], "rb") : NULL;
    if (file == NULL) {
        fprintf(stderr, "boundary MODEL.rnn\n");
        return 2;
    }
    model_size = fread(model, 1, sizeof model, file);
    fclose(file);
    fill();
    expect("open", open_by(tuppence_open), 0);
    for (int i = 0; i < CALLS; i++)
        bad_call();
    expect("NULL with length 0", tuppence_pack(NULL, 0, NULL, 0), 0);
    environments();
    size_t used = stack_used();
    printf("%d bad calls refused, none wrote anything; 4 rounding modes alike; %zu KiB of stack\n", CALLS, used / 1024);
    return used < 256 * 1024 ? 0 : 1;
}
