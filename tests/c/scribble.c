/*
 * Calls on scribbled states and bytes. Every buffer ends at a page that may not be touched, so that a call which reads or writes past its end
 * is stopped. A right world is played for a while; then words of the state and bytes of the image are scribbled over, and calls of every kind
 * are made with any arguments. A refused call must have changed nothing: no word of the state, no byte of the image, of a target or of a number
 * that it was to tell; a call that only reads must not have changed the image; and each answer is one of those that there are.
 *
 *     scribble SEED CALLS       so many after scribbling; prints how many were taken and refused, and by what, and ends with status 1 where
 *                               something changed
 */
#define _GNU_SOURCE
#include <stdio.h>
#include <stdlib.h>
#include <string.h>
#include <sys/mman.h>

#include "badgerdross.h"

enum { PAGE = 4096, ROOM = 8 * PAGE, ANSWERS = 31, PLAYED = 25, MAP = 256 };

static uint64_t seed;
static uint64_t any(void)
{
    seed ^= seed << 13, seed ^= seed >> 7, seed ^= seed << 17;
    return seed;
}
static size_t below(size_t n) { return (size_t)(any() >> 11) % n; }

/* A number that is small, near a bound, or anything. */
static size_t odd(size_t small)
{
    static const uint64_t bounds[] = {3, 4, 63, 64, 1023, 1024, 65535, UINT32_MAX, UINT64_MAX, (uint64_t)1 << 32, (uint64_t)1 << 63};
    switch (below(8)) {
    case 0: return (size_t)bounds[below(sizeof bounds / sizeof *bounds)];
    case 1: return (size_t)any();
    default: return below(small);
    }
}

/* So many bytes that end at a page which may not be touched. */
static uint8_t *guarded(size_t bytes)
{
    size_t pages = (bytes + PAGE - 1) / PAGE;
    uint8_t *at = mmap(NULL, (pages + 1) * PAGE, PROT_READ | PROT_WRITE, MAP_PRIVATE | MAP_ANONYMOUS, -1, 0);
    if (at == MAP_FAILED || mprotect(at + pages * PAGE, PAGE, PROT_NONE) != 0)
        exit(2);
    return at + pages * PAGE - bytes;
}

/* ---- what the calls are lent, and a copy of all of it */

struct told {
    struct badgerdross_next next;
    struct badgerdross_refusal refusal;
    size_t made, sentence;
    uint64_t moduli[24];
    uint8_t target[200];
};

static uint8_t *image_end, *text_end, *table_end;
static struct badgerdross *store, store_kept;
static struct told *told, told_kept;
static uint8_t image_kept[ROOM];
static size_t length, table_length;

static uint8_t *image(void) { return image_end - length; }

static void keep(void)
{
    store_kept = *store;
    told_kept = *told;
    memcpy(image_kept, image(), length);
}

/* ---- a call at random */

enum kind { READS = 1, WORDS_ONLY = 2 };

/* How the calls change what they are lent: those that only read, and those that leave the image. */
static const int reads[] = {WORDS_ONLY, READS, READS, WORDS_ONLY, WORDS_ONLY, WORDS_ONLY, READS, WORDS_ONLY, READS, READS};

static size_t quiet_call(size_t which)
{
    size_t n = below(201), page = odd(3), line = odd(4), writer = odd(4);
    uint8_t *target = (uint8_t *)(told + 1) - n; /* told's last member is the target */
    switch (which) {
    case 0: return badgerdross_mount(store, image(), length);
    case 1: return badgerdross_recall(page, line, image(), length, target, n);
    case 2: return badgerdross_read(store, image(), length, writer, page, line, target, n);
    case 3: return badgerdross_begin(store, writer);
    case 4: return badgerdross_begin_wide(store, writer);
    case 5: return badgerdross_abort(store, writer);
    case 6: n = below(2) ? table_length : below(table_length);
        return badgerdross_load(store, image(), length, table_end - n, n, told->moduli);
    case 7: return badgerdross_withdraw(store, image(), length, writer);
    case 8: return badgerdross_next_store(store, image(), length, &told->next);
    default: told->refusal.call = odd(20), told->refusal.number = odd(32), told_kept.refusal = told->refusal;
        return badgerdross_sentence(store, &told->refusal, target, n, &told->sentence);
    }
}

static size_t storing_call(size_t which)
{
    size_t n = below(70), until = odd(3), writer = odd(4);
    switch (which) {
    case 0: return badgerdross_write(store, image(), length, writer, odd(3), odd(4), odd(8), text_end - n, n, until);
    case 1: return badgerdross_commit(store, image(), length, writer, until);
    case 2: return badgerdross_prepare(store, image(), length, writer, until);
    case 3: return badgerdross_confirm(store, image(), length, writer, until);
    case 4: return badgerdross_consolidate(store, image(), length, odd(3), until);
    case 5: return badgerdross_free_slot(store, image(), length, until);
    case 6: return badgerdross_checkpoint(store, image(), length, until);
    case 7: return badgerdross_event(store, image(), length, odd(6), odd(24), odd(1000), told->moduli, 24 - (below(20) == 0), until);
    case 8: return badgerdross_step(store, image(), length);
    case 9: return badgerdross_run(store, image(), length, odd(30), &told->made);
    default: return badgerdross_format(store, image(), length, odd(4), odd(3), odd(4), odd(3), until);
    }
}

static size_t answers[ANSWERS], taken;

static void fail(const char *what, size_t which, size_t answer)
{
    printf("scribble: call %zu, answer %zu: %s\n", which, answer, what);
    exit(1);
}

/* One of 21 calls; a format is rare. */
static void call(void)
{
    size_t which = below(60) == 0 ? 20 : below(20);
    size_t answer = which < 10 ? quiet_call(which) : storing_call(which - 10);
    if (answer >= ANSWERS || answer == 16)
        fail("no such answer", which, answer);
    answers[answer]++;
    taken += answer == 0;
    if ((answer != 0 || which < 10) && memcmp(image_kept, image(), length) != 0)
        fail("the image has changed", which, answer);
    if ((answer != 0 || (which < 10 && reads[which] == READS)) && memcmp(&store_kept, store, sizeof *store) != 0)
        fail("the state has changed", which, answer);
    if (answer != 0 && memcmp(&told_kept, told, sizeof *told) != 0)
        fail("what it was to tell has changed", which, answer);
    if (answer == 0)
        keep();
}

/* ---- a right world, and scribbling */

static void format(void)
{
    size_t pages = 1 + below(3), slots = 1 + below(2), places = slots + below(3), entries = below(3);
    length = badgerdross_image_length(pages, slots, places, entries);
    for (size_t i = 0; i < 24; i++)
        told->moduli[i] = 1000;
    if (badgerdross_format(store, image(), length, pages, slots, places, entries, BADGERDROSS_END) != BADGERDROSS_TAKEN)
        fail("a format was turned back", 20, 0);
}

/* A word of the state: before the page map, of a page's entry in it, or any. The pages are few, and most of the map is not read. */
static size_t some_word(void)
{
    size_t part = below(4);
    return part == 0 ? below(BADGERDROSS_WORDS) : part == 1 ? MAP + below(4) : below(MAP);
}

static void scribble(void)
{
    for (size_t n = below(4); n > 0; n--)
        store->words[some_word()] = odd(below(2) ? 6 : 70);
    for (size_t n = below(4); n > 0; n--) {
        uint64_t word = odd(20);
        memcpy(image() + 8 * below(below(2) ? 64 : length / 8), &word, 8);
    }
    if (below(8) == 0)
        length = 8 * below(length / 8 + 1);
    if (below(50) == 0)
        for (size_t i = 0; i < BADGERDROSS_WORDS; i++)
            store->words[i] = any();
}

int main(int count, char **arguments)
{
    seed = count == 3 ? strtoull(arguments[1], NULL, 10) : 1;
    size_t calls = count == 3 ? strtoull(arguments[2], NULL, 10) : 1000000;
    image_end = guarded(ROOM) + ROOM;
    text_end = guarded(70) + 70;
    store = (struct badgerdross *)(void *)guarded(sizeof *store);
    told = (struct told *)(void *)guarded(sizeof *told);
    for (size_t i = 1; i <= 70; i++)
        text_end[-(long)i] = (uint8_t)any();
    char table[256];
    for (int m = 0; m < 24; m++)
        table_length += (size_t)sprintf(table + table_length, "%d,%d\n", m, 100 + 900 * (m % 2));
    table_end = guarded(table_length) + table_length;
    memcpy(table_end - table_length, table, table_length);
    size_t right = 0;
    for (size_t made = 0; made < calls;) {
        format();
        keep();
        for (size_t i = 0; i < PLAYED; i++, right++)
            call();
        scribble();
        keep();
        for (size_t i = 0; i < PLAYED && made < calls; i++, made++)
            call();
    }
    printf("scribble: %zu calls and %zu before them, %zu taken, no refused one changed anything; refused by", calls, right, taken);
    for (size_t i = 1; i < ANSWERS; i++)
        if (answers[i] > 0)
            printf(" %zu: %zu", i, answers[i]);
    printf("\n");
    return 0;
}
