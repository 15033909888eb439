/*
 * A round in one call beside the same calls one by one: lists of writes at random, right and wrong, on stores of several sizes, some with
 * another writer open, a buffer that is too short or a broken state. After each round both have answered the same number of the same call,
 * and the words and the bytes are equal.
 */
#include <stdio.h>
#include <stdlib.h>
#include <string.h>

#include "badgerdross.h"

#define MOST 8
#define LARGEST (1 << 18)

struct side {
    struct badgerdross store;
    uint8_t image[LARGEST];
};

static struct side one, many;
static uint64_t seed = 20190001;

static uint64_t below(uint64_t n) {
    seed = seed * 6364136223846793005u + 1442695040888963407u;
    return (seed >> 33) % n;
}

/* The call again after a checkpoint, where the journal is full and that is asked for. */
static size_t freed(size_t length, size_t room) {
    size_t n = badgerdross_free_slot(&many.store, many.image, length, BADGERDROSS_END);
    if (n == 19 && (room & BADGERDROSS_CHECKPOINT)) {
        badgerdross_checkpoint(&many.store, many.image, length, BADGERDROSS_END);
        n = badgerdross_free_slot(&many.store, many.image, length, BADGERDROSS_END);
    }
    return n;
}

static size_t committed(size_t length, size_t writer, size_t room) {
    size_t n = badgerdross_commit(&many.store, many.image, length, writer, BADGERDROSS_END);
    if (n == 19 && (room & BADGERDROSS_CHECKPOINT)) {
        badgerdross_checkpoint(&many.store, many.image, length, BADGERDROSS_END);
        n = badgerdross_commit(&many.store, many.image, length, writer, BADGERDROSS_END);
    }
    return n;
}

/* One write. The call for C writes all bytes that it is lent, so the bytes that are short are told before it. */
static size_t put(size_t length, size_t writer, const uint64_t *w, const uint8_t *data, size_t left) {
    size_t n = w[3] <= left ? w[3] : left;
    size_t line = w[3] <= left ? w[1] : 64;
    return badgerdross_write(&many.store, many.image, length, writer, w[0], line, w[2], data, n, BADGERDROSS_END);
}

static size_t by_calls(size_t length, size_t writer, const uint64_t *writes, size_t words, const uint8_t *data, size_t bytes, size_t room,
                       size_t *call) {
    *call = 0;
    size_t n = badgerdross_begin(&many.store, writer);
    if (n != 0) {
        return n;
    }
    size_t at = 0;
    for (size_t k = 0; n == 0 && k + 4 <= words; k += 4) {
        *call += 1;
        n = put(length, writer, writes + k, data + at, bytes - at);
        if (n == 15 && (room & BADGERDROSS_FREE)) {
            n = freed(length, room);
            if (n == 0) {
                n = put(length, writer, writes + k, data + at, bytes - at);
            }
        }
        at += n == 0 ? writes[k + 3] : 0;
    }
    if (n == 0) {
        *call += 1;
        n = committed(length, writer, room);
    }
    if (n != 0) {
        badgerdross_abort(&many.store, writer);
    }
    return n;
}

/* A round that is mostly right; of one in eight a number is wrong. */
static size_t compose(uint64_t *writes, uint8_t *data, size_t pages, size_t *bytes) {
    size_t n = below(MOST + 1);
    *bytes = 0;
    for (size_t i = 0; i < n; i++) {
        uint64_t offset = below(64);
        uint64_t *w = writes + 4 * i;
        w[0] = below(pages);
        w[1] = below(64);
        w[2] = offset;
        w[3] = 1 + below(64 - offset);
        if (below(16) == 0) {
            w[below(4)] = below(2) ? below(2000) : UINT64_MAX - below(3);
        }
        *bytes += w[3] < 65 ? w[3] : 0;
    }
    for (size_t i = 0; i < *bytes; i++) {
        data[i] = (uint8_t)below(256);
    }
    if (below(16) == 0 && *bytes > 0) {
        *bytes = below(*bytes);
    }
    return below(8) == 0 ? 4 * n + below(4) : 4 * n;
}

/* Something between two rounds, done to both sides. */
static void between(size_t length, size_t pages) {
    size_t writer = below(4);
    uint64_t word = below(256 + pages); /* of the state, with the entries of the map that are read */
    for (int i = 0; i < 2; i++) {
        struct side *s = i ? &many : &one;
        uint8_t byte[1] = {7};
        badgerdross_begin(&s->store, writer);
        badgerdross_write(&s->store, s->image, length, writer, word % pages, word % 64, 0, byte, 1, word % 2 ? BADGERDROSS_ASKED : BADGERDROSS_END);
        if (word % 5 == 0) {
            s->store.words[word] += 1;
        }
    }
}

int main(void) {
    static const size_t sizes[][4] = {{2, 1, 2, 0}, {16, 4, 64, 0}, {5, 2, 3, 0}, {20, 16, 16, 2}, {8, 3, 256, 0}};
    size_t counts[31] = {0};
    size_t rounds = 0, last = 0;
    uint64_t writes[4 * MOST + 4];
    uint8_t data[64 * MOST + 64];
    for (int t = 0; t < 4000; t++) {
        const size_t *z = sizes[t % 5];
        size_t length = badgerdross_image_length(z[0], z[1], z[2], z[3]);
        badgerdross_format(&one.store, one.image, length, z[0], z[1], z[2], z[3], BADGERDROSS_END);
        many = one;
        for (int r = 0; r < 12; r++) {
            size_t bytes, call_one = 99, call_many = 99;
            size_t words = compose(writes, data, z[0], &bytes);
            size_t room = below(4), writer = below(32) == 0 ? 4 : below(2);
            size_t lent = below(64) == 0 ? length - 1 : length;
            size_t a = badgerdross_round(&one.store, one.image, lent, writer, writes, words, data, bytes, room, &call_one);
            size_t b = by_calls(lent, writer, writes, words, data, bytes, room, &call_many);
            if (a != b || call_one != call_many || memcmp(&one, &many, sizeof one) != 0) {
                printf("round: list %d, round %d: in one call %zu of call %zu, by calls %zu of call %zu%s\n", t, r, a, call_one, b, call_many,
                       memcmp(&one, &many, sizeof one) != 0 ? "; words or bytes differ" : "");
                return 1;
            }
            rounds += 1;
            counts[a] += 1;
            last += a != 0 && call_one == words / 4 + 1;
            if (below(24) == 0) {
                between(length, z[0]);
            }
        }
    }
    printf("round: %zu rounds, none differs; answers", rounds);
    for (int i = 0; i < 31; i++) {
        if (counts[i] != 0) {
            printf(" %d: %zu", i, counts[i]);
        }
    }
    printf("; refused at the commit: %zu\n", last);
    return 0;
}
