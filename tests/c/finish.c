/*
 * badgerdross_finish on memory behind a cache that is lost with the power. The image is what the cache and the memory show together; the
 * memory alone is kept beside it. A line of 64 bytes reaches the memory when a fence waits for it, and may do so at any time before: so at each
 * call of persist power is cut, with any mix of the words that are still on their way. Each such memory must mount, and must show every page as
 * before the operation, or, once a store that decides has been made, as after it, and so from the fence behind that store on. A format over an
 * image is cut in the same way: the old image, then none (2), then the fresh one.
 *
 *     finish SEED       prints what was played; ends with status 1 where a memory shows anything else
 */
#include <stdio.h>
#include <stdlib.h>
#include <string.h>

#include "badgerdross.h"

enum { PAGES = 5, SLOTS = 3, PLACES = 6, ENTRIES = 4, LINES = 8, OPERATIONS = 4000, MIXES = 6, MOST = 80000 };

static struct badgerdross store;
static uint64_t image_words[MOST / 8], memory_words[MOST / 8], mixed_words[MOST / 8];
static uint8_t *const image = (uint8_t *)image_words, *const memory = (uint8_t *)memory_words, *const mixed = (uint8_t *)mixed_words;
static size_t length;

static uint64_t seed;
static size_t below(size_t n)
{
    seed ^= seed << 13, seed ^= seed >> 7, seed ^= seed << 17;
    return (size_t)(seed >> 11) % n;
}

static void fail(const char *what)
{
    printf("finish: %s\n", what);
    exit(1);
}

/* ---- what a memory shows: the first lines of each page, after a mount */

typedef uint8_t shown[PAGES][LINES][64];
static shown before, after, now;

static void show(const uint8_t *bytes, shown to)
{
    struct badgerdross mounted;
    if (badgerdross_mount(&mounted, bytes, length) != BADGERDROSS_TAKEN)
        fail("a mount was turned back");
    for (size_t p = 0; p < PAGES; p++)
        for (size_t l = 0; l < LINES; l++)
            if (badgerdross_recall(p, l, bytes, length, to[p][l], 64) != BADGERDROSS_TAKEN)
                fail("a recall was turned back");
}

/* ---- the cache: which lines were told to be written back, whether a store that decides is made and waited for, and how many fences it took */

static uint8_t told[MOST / 64];
static int decided, settled, strict, formatting;
static size_t cuts, fences, ranges, fences_of_format;

/* Of a format with so many fences behind it: its first and its last store decide, and each may have landed from the fence before it on. */
static void cut_format(void)
{
    struct badgerdross mounted;
    size_t answer = badgerdross_mount(&mounted, mixed, length);
    int fresh = answer == BADGERDROSS_TAKEN && mixed_words[2] == PLACES - 1;
    int old = answer == BADGERDROSS_TAKEN && mixed_words[2] == PLACES, none = answer == BADGERDROSS_UNKNOWN_LAYOUT;
    static const int may_be_old[] = {1, 1, 0, 0, 0}, may_be_none[] = {0, 1, 1, 1, 0}, may_be_fresh[] = {0, 0, 0, 1, 1};
    if (!(old && may_be_old[fences_of_format]) && !(none && may_be_none[fences_of_format]) && !(fresh && may_be_fresh[fences_of_format]))
        fail("a cut of a format shows what it must not");
}

static void cut(void)
{
    for (int i = 0; i < MIXES; i++) {
        size_t keep = below(5);
        memcpy(mixed, memory, length);
        for (size_t w = 0; w < length / 8; w++)
            if (memory_words[w] != image_words[w] && below(4) < keep)
                mixed_words[w] = image_words[w];
        cuts++;
        if (formatting) {
            cut_format();
            continue;
        }
        show(mixed, now);
        int is_before = memcmp(now, before, sizeof now) == 0, is_after = memcmp(now, after, sizeof now) == 0;
        if (!(is_before && !settled) && !(is_after && (decided || settled)))
            fail("a cut shows neither the pages before nor those after");
    }
}

static void persist(void *context, const uint8_t *from, size_t bytes)
{
    (void)context;
    if (strict)
        cut();
    if (bytes > 0) {
        ranges++;
        for (size_t line = (size_t)(from - image) / 64; line <= ((size_t)(from - image) + bytes - 1) / 64; line++)
            told[line] = 1;
        return;
    }
    fences++;
    fences_of_format += (size_t)formatting;
    for (size_t line = 0; line < (length + 63) / 64; line++)
        if (told[line]) {
            memcpy(memory + 64 * line, image + 64 * line, 64);
            told[line] = 0;
        }
    settled |= decided;
    /* the next store is the one that decides, or the fence is the one behind it */
    decided = !decided;
}

/* ---- operations at random; the pages after one are those that the same calls show with every store made in order */

static size_t ask(size_t kind, size_t writer, const uint8_t *data)
{
    static const uint64_t moduli[24] = {100000, 100000, 100000, 100000, 100000, 1000, 1000, 1000, 1000, 1000, 1000, 1000,
                                        1000,   1000,   1000,   1000,   1000,   1000, 1000, 1000, 1000, 1000, 1000, 1000};
    switch (kind) {
    case 0: return badgerdross_commit(&store, image, length, writer, BADGERDROSS_ASKED);
    case 1: return badgerdross_consolidate(&store, image, length, below(PAGES), BADGERDROSS_ASKED);
    case 2: return badgerdross_free_slot(&store, image, length, BADGERDROSS_ASKED);
    case 3: return badgerdross_checkpoint(&store, image, length, BADGERDROSS_ASKED);
    case 4: return badgerdross_event(&store, image, length, 1 + below(5), 5 + below(3), below(50), moduli, 24, BADGERDROSS_ASKED);
    case 5: return badgerdross_prepare(&store, image, length, writer, BADGERDROSS_ASKED);
    case 6: return badgerdross_confirm(&store, image, length, writer, BADGERDROSS_ASKED);
    case 7: return badgerdross_withdraw(&store, image, length, writer);
    case 8: return badgerdross_begin(&store, writer);
    case 9: return badgerdross_begin_wide(&store, writer);
    case 10: return badgerdross_abort(&store, writer);
    default: return badgerdross_write(&store, image, length, writer, below(PAGES), below(LINES), 0, data, 64, BADGERDROSS_ASKED);
    }
}

static void play(size_t operation)
{
    static struct badgerdross kept_state;
    static uint64_t kept[MOST / 8];
    uint8_t data[64];
    for (size_t i = 0; i < 64; i++)
        data[i] = (uint8_t)(operation * 31 + i);
    if (ask(below(24), below(3), data) != BADGERDROSS_TAKEN)
        return;
    memcpy(kept, image, length);
    kept_state = store;
    size_t made;
    badgerdross_run(&store, image, length, SIZE_MAX, &made);
    show(image, after);
    memcpy(image, kept, length);
    store = kept_state;
    decided = settled = 0;
    if (badgerdross_finish(&store, image, length, persist, NULL) != BADGERDROSS_TAKEN)
        fail("a finish was turned back");
    cut();
    memcpy(before, after, sizeof before);
}

int main(int count, char **arguments)
{
    seed = count == 2 ? strtoull(arguments[1], NULL, 10) : 1;
    length = badgerdross_image_length(PAGES, SLOTS, PLACES, ENTRIES);
    if (length == 0 || length > MOST)
        return 2;
    badgerdross_format(&store, image, length, PAGES, SLOTS, PLACES, ENTRIES, BADGERDROSS_ASKED);
    if (badgerdross_finish(&store, image, length, persist, NULL) != BADGERDROSS_TAKEN || memcmp(memory, image, length) != 0)
        fail("a format was not all in the memory at its end");
    show(memory, before);
    strict = 1;
    for (size_t i = 0; i < OPERATIONS; i++)
        play(i);
    /* with a place less, by which the fresh image is told from the old one */
    formatting = 1;
    badgerdross_format(&store, image, length, PAGES, SLOTS, PLACES - 1, ENTRIES, BADGERDROSS_ASKED);
    if (badgerdross_finish(&store, image, length, persist, NULL) != BADGERDROSS_TAKEN || fences_of_format != 4)
        fail("a format was turned back, or took other than four fences");
    cut();
    printf("finish: %zu ranges, %zu fences, %zu cuts, none torn\n", ranges, fences, cuts);
    return 0;
}
