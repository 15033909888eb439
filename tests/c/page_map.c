/* The page map of the state (document 02, L5), by the calls alone: what a stray word in the image's page table does, what
 * a consolidation shows before and after its last store, and which maps row 8 turns back. Prints how much was tried. */
#include "badgerdross.h"

#include <stdio.h>
#include <stdlib.h>
#include <string.h>

enum { PAGES = 24, SLOTS = 4, PLACES = 16, ENTRIES = 8, FRAMES = PAGES + SLOTS };
/* where the parts of a state stand: the table's pages, originals and spares, and the map */
enum { PAGE = 40, ORIGINAL = 56, SPARE = 72, MAP = 256 };

static _Alignas(8) uint8_t image[1 << 18], other[1 << 18];
static size_t length, tried;

static void must(int holds, const char *what, size_t at) {
    tried++;
    if (!holds) {
        printf("page_map: %s, %zu\n", what, at);
        exit(1);
    }
}

static uint64_t mark(size_t page, size_t line, size_t round) { return 1 + line + 64 * (page + 1024 * round); }

static void fill(uint8_t *data, size_t page, size_t line, size_t round) {
    uint64_t v = mark(page, line, round);
    for (int i = 0; i < 8; i++) memcpy(data + 8 * i, &v, 8);
}

/* commits n lines of a page, from line 0 on */
static void commit_lines(struct badgerdross *s, size_t page, size_t n, size_t round) {
    uint8_t data[64];
    must(badgerdross_begin(s, 0) == 0, "begin", page);
    for (size_t l = 0; l < n; l++) {
        fill(data, page, l, round);
        must(badgerdross_write(s, image, length, 0, page, l, 0, data, 64, BADGERDROSS_END) == 0, "write", l);
    }
    size_t a = badgerdross_commit(s, image, length, 0, BADGERDROSS_END);
    if (a == BADGERDROSS_JOURNAL_FULL) {
        must(badgerdross_checkpoint(s, image, length, BADGERDROSS_END) == 0, "checkpoint", page);
        a = badgerdross_commit(s, image, length, 0, BADGERDROSS_END);
    }
    must(a == 0, "commit", page);
}

/* whether each of a page's first n lines reads as the round wrote it, and the others as zeros, on the image that is given */
static int reads(const struct badgerdross *s, const uint8_t *at, size_t page, size_t n, size_t round) {
    uint8_t line[64], want[64];
    for (size_t l = 0; l < 64; l++) {
        memset(want, 0, 64);
        if (l < n) fill(want, page, l, round);
        memset(line, 0xee, 64);
        if (badgerdross_read(s, at, length, 1, page, l, line, 64) != 0 || memcmp(line, want, 64) != 0) return 0;
    }
    return 1;
}

/* consolidates a page that has n lines committed, store by store: after each it reads as before, mounted or not, and its entry changes with the last */
static void consolidate(struct badgerdross *s, size_t page, size_t n, size_t round) {
    uint64_t entry = s->words[MAP + page];
    size_t made = 0;
    int more;
    must(badgerdross_consolidate(s, image, length, page, BADGERDROSS_ASKED) == 0, "consolidate", page);
    must(s->words[MAP + page] == entry, "the map changes when asked", page);
    do {
        struct badgerdross again;
        struct badgerdross_next next;
        must(badgerdross_step(s, image, length) == 0, "step", made++);
        more = badgerdross_next_store(s, image, length, &next) == BADGERDROSS_TAKEN;
        must(badgerdross_mount(&again, image, length) == 0, "mount in a consolidation", made);
        must(reads(&again, image, page, n, round), "lines after a cut", made);
        must(!more || s->words[MAP + page] == entry, "the map before the last store", made);
        if (!more) {
            must(reads(s, image, page, n, round), "lines without a mount", made);
            must(s->words[MAP + page] == again.words[MAP + page], "the map is the mount's", made);
            must((s->words[MAP + page] != entry) == (n > 32), "the page moves", n);
        }
    } while (more);
}

/* any word over the page-table word of a page without a slot: reads are as before, mount is 7 */
static void stray(const struct badgerdross *s, size_t page, size_t n, size_t round) {
    uint64_t strays[] = {FRAMES, 1040, 1u << 20, UINT64_MAX, s->words[SPARE], s->words[MAP + (page + 1) % PAGES]};
    for (size_t k = 0; k < sizeof strays / sizeof *strays; k++) {
        struct badgerdross again;
        memcpy(other, image, length);
        memcpy(other + 8 * (8 + page), &strays[k], 8);
        must(reads(s, other, page, n, round), "reads after a stray page word", k);
        must(badgerdross_mount(&again, other, length) == BADGERDROSS_BAD_SLOTS, "mount of a stray page word", k);
    }
}

/* a state with one word replaced: every call that tests row 8 first answers 8 */
static void broken(const struct badgerdross *s, size_t word, uint64_t v, const char *what) {
    struct badgerdross t = *s, before;
    uint8_t line[64];
    t.words[word] = v;
    before = t;
    must(badgerdross_begin(&t, 2) == BADGERDROSS_BAD_STATE, what, 0);
    must(badgerdross_abort(&t, 2) == BADGERDROSS_BAD_STATE, what, 1);
    must(badgerdross_read(&t, image, length, 0, 0, 0, line, 64) == BADGERDROSS_BAD_STATE, what, 2);
    must(badgerdross_checkpoint(&t, image, length, BADGERDROSS_END) == BADGERDROSS_BAD_STATE, what, 3);
    must(memcmp(&t, &before, sizeof t) == 0, "a refusal changes the state", word);
}

static void row_8(const struct badgerdross *s) {
    size_t a = PAGES, b = PAGES;
    struct badgerdross copy = *s;
    for (size_t k = 0; k < SLOTS; k++) {
        if (s->words[PAGE + k] < PAGES && a == PAGES) a = k;
        else if (s->words[PAGE + k] < PAGES) b = k;
    }
    must(a < SLOTS && b < SLOTS, "two slots are taken", a);
    must(badgerdross_begin(&copy, 2) == 0, "the state itself", 0);
    for (size_t p = 0; p < PAGES; p++) {
        broken(s, MAP + p, s->words[MAP + (p + 1) % PAGES], "an entry twice");
        broken(s, MAP + p, s->words[SPARE + p % SLOTS], "an entry that is a spare");
        broken(s, MAP + p, FRAMES, "an entry past the last frame");
        broken(s, MAP + p, (uint64_t)1 << 63, "a large entry");
    }
    copy = *s;
    /* both the slot's original and another page's entry are frames named once, but the slotted page's is not its slot's */
    copy.words[MAP + s->words[PAGE + a]] = s->words[MAP + s->words[PAGE + b]];
    broken(&copy, MAP + s->words[PAGE + b], s->words[MAP + s->words[PAGE + a]], "an entry that is not its slot's original");
    /* two slots on one page, each frame still named once: the second's own page keeps its entry */
    copy = *s;
    copy.words[PAGE + b] = s->words[PAGE + a];
    broken(&copy, ORIGINAL + b, s->words[ORIGINAL + a], "two slots on one page");
    broken(s, PAGE + b, s->words[PAGE + a], "two slots on one page, two originals");
    /* entries past the last page are nobody's */
    copy = *s;
    for (size_t p = PAGES; p < 1024; p++) copy.words[MAP + p] = p * 77;
    must(badgerdross_begin(&copy, 2) == 0, "entries past P", 0);
}

int main(void) {
    struct badgerdross s;
    length = badgerdross_image_length(PAGES, SLOTS, PLACES, ENTRIES);
    must(length != 0 && length <= sizeof image, "sizes", length);
    must(badgerdross_format(&s, image, length, PAGES, SLOTS, PLACES, ENTRIES, BADGERDROSS_END) == 0, "format", 0);
    for (size_t p = 0; p < PAGES; p++) must(s.words[MAP + p] == p, "a fresh map", p);
    size_t counts[] = {1, 31, 32, 33, 64};
    for (size_t round = 1; round <= 3; round++) {
        for (size_t k = 0; k < 5; k++) {
            size_t page = 3 * k + round % 2;
            if (round == 3) page = 15 + k;
            commit_lines(&s, page, counts[k], round);
            consolidate(&s, page, counts[k], round);
            stray(&s, page, counts[k], round);
            must(badgerdross_mount(&s, image, length) == 0, "mount", page);
            must(reads(&s, image, page, counts[k], round), "lines after a mount", page);
        }
    }
    commit_lines(&s, 21, 33, 4);
    commit_lines(&s, 22, 5, 4);
    row_8(&s);
    printf("page_map: %zu answers and lines, all as they must be\n", tried);
    return 0;
}
