/* A second of noise and a tone, cleaned in pieces of 1,000 samples: clean_a_second MODEL.rnn >SECOND

   It writes the samples that come out as floats. oracle/tests/header.rs compiles it with warnings as errors, links the
   library, and finds in what it writes, bit for bit, what Rust gets from the same calls. */
#include "tuppence.h"

#include <stdio.h>
#include <stdlib.h>

enum { SECOND = 48000, PIECE = 1000, FRAME = 480, MOST_FRAMES = 9, FRAMES = 5, HEARD = 6 };

static float store[TUPPENCE_STORE];
static float sound[SECOND];
static uint8_t model[1 << 20];

/* Seeded noise, and from the half second on a tone of 200 Hz over it. */
static void make_sound(void)
{
    uint64_t x = 12;
    for (int i = 0; i < SECOND; i++) {
        x ^= x << 13;
        x ^= x >> 7;
        x ^= x << 17;
        int tone = i < SECOND / 2 ? 0 : i / 120 % 2 ? 3000 : -3000;
        sound[i] = (float)((int)(x >> 53) - 1024 + tone);
    }
}

/* Ends the program where a call gave another number than was looked for. */
static void look_for(uint32_t wanted, uint32_t number, const char *call)
{
    if (number == wanted)
        return;
    fprintf(stderr, "%s gave %lu, and %lu was looked for\n", call, (unsigned long)number, (unsigned long)wanted);
    exit(1);
}

int main(int count, char **words)
{
    FILE *file = count == 2 ? fopen(words[1], "rb") : NULL;
    if (file == NULL) {
        fprintf(stderr, "clean_a_second MODEL.rnn >SECOND\n");
        return 2;
    }
    size_t size = fread(model, 1, sizeof model, file);
    fclose(file);
    make_sound();

    uint32_t record[TUPPENCE_RECORD] = {0};
    float out[FRAME * MOST_FRAMES], answers[3 * MOST_FRAMES];
    /* a bench that is not open refuses with 3, and a model that lacks its last byte is refused with 7 */
    look_for(3,
        tuppence_take(record, TUPPENCE_RECORD, store, TUPPENCE_STORE, 0, sound, PIECE, model, size,
            out, FRAME * MOST_FRAMES, answers, 3 * MOST_FRAMES),
        "tuppence_take of a closed bench");
    look_for(7, tuppence_open(record, TUPPENCE_RECORD, store, TUPPENCE_STORE, 0, model, size - 1) % 256,
             "tuppence_open of a torn model");
    look_for(0, tuppence_open(record, TUPPENCE_RECORD, store, TUPPENCE_STORE, 0, model, size), "tuppence_open");
    /* both benches are open: the left's record, handed in for the right side, is refused with 2 */
    uint32_t right[TUPPENCE_RECORD] = {0};
    look_for(0, tuppence_open(right, TUPPENCE_RECORD, store, TUPPENCE_STORE, 1, model, size),
             "tuppence_open of the right");
    look_for(2,
        tuppence_frame(record, TUPPENCE_RECORD, store, TUPPENCE_STORE, 1, sound, FRAME, model, size,
            out, FRAME, answers, 3),
        "tuppence_frame of the right with the left's record");
    for (int at = 0; at < SECOND; at += PIECE) {
        uint32_t before = record[FRAMES];
        look_for(0,
            tuppence_take(record, TUPPENCE_RECORD, store, TUPPENCE_STORE, 0, sound + at, PIECE, model, size,
                out, FRAME * MOST_FRAMES, answers, 3 * MOST_FRAMES),
            "tuppence_take");
        size_t written = FRAME * (size_t)(record[FRAMES] - before);
        if (fwrite(out, sizeof out[0], written, stdout) != written)
            return 1;
    }
    fprintf(stderr, "%lu frames, %lu heard\n", (unsigned long)record[FRAMES], (unsigned long)record[HEARD]);
    return fflush(stdout) == 0 ? 0 : 1;
}
