// Recall (a mount and one line) of the largest image beside a plain copy of the same metadata words, in one run:
//   tools/archive recalling && cc -O2 -Iinclude bench/mount.c target/staticlib/librecalling.a -o mount && ./mount
#include <stdint.h>
#include <stdio.h>
#include <stdlib.h>
#include <string.h>
#include <time.h>
#include "badgerdross.h"

enum { P = 1024, S = 16, J = 256, METADATA = 8 + P + 3 * S + 4 * J, WORDS = (METADATA + 7) / 8 * 8 + 512 * (P + S), TURNS = 500 };

static double now(void)
{
    struct timespec t;
    clock_gettime(CLOCK_MONOTONIC, &t);
    return t.tv_sec * 1e9 + t.tv_nsec;
}

// An image whose first 16 pages are slotted by so many live records, one a transaction, or a fresh one.
static uint64_t *image_with(uint64_t live)
{
    uint64_t *w = calloc(WORDS, 8);
    if (!w)
        exit(1);
    w[0] = P, w[1] = S, w[2] = J, w[3] = 1, w[4] = live;
    for (uint64_t p = 0; p < P; p++)
        w[8 + p] = p;
    for (uint64_t s = 0; s < S; s++) {
        uint64_t *slot = w + 8 + P + 3 * s;
        slot[0] = ~0ull, slot[1] = 0xffffffff + ((P + s) << 32);
    }
    for (uint64_t q = 0; q < live; q++) {
        uint64_t *record = w + 8 + P + 3 * S + 4 * q, s = q % S;
        record[0] = q + (s << 32), record[1] = s, record[2] = s + ((P + s) << 32), record[3] = q;
    }
    return w;
}

static void measure(uint64_t live)
{
    uint64_t *image = image_with(live), copy[METADATA];
    volatile uint64_t sink = 0;
    uint8_t line[64];
    size_t row = 0;
    double best_recall = 1e18, best_copy = 1e18;
    for (int k = 0; k < 30; k++) {
        double from = now();
        for (int i = 0; i < TURNS; i++)
            row |= recall(5, 0, (uint8_t *)image, 8 * WORDS, line, 64);
        double recalled = now();
        for (int i = 0; i < TURNS; i++) {
            memcpy(copy, image, sizeof copy);
            sink += copy[i];
        }
        double copied = now();
        if ((recalled - from) / TURNS < best_recall)
            best_recall = (recalled - from) / TURNS;
        if ((copied - recalled) / TURNS < best_copy)
            best_copy = (copied - recalled) / TURNS;
    }
    printf("live=%d row=%zu recall %.0f ns, copy of the %d metadata words %.0f ns, ratio %.1f\n", (int)live, row, best_recall, METADATA, best_copy,
        best_recall / best_copy);
    free(image);
}

int main(void)
{
    measure(0);
    measure(J);
}
