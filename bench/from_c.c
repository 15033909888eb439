// This store from C, by libbadgerdross.a. Plainly every call runs to its end; with -DONE_CALL a round is one call. With -DFENCED each call is asked
// for and finished: what was stored is written back from the cache, and each store that decides stands alone between two fences, as libpmemobj
// flushes and fences its own.
#include <cpuid.h>
#include <fcntl.h>
#include <immintrin.h>
#include <stdio.h>
#include <stdlib.h>
#include <string.h>
#include <sys/mman.h>
#include <unistd.h>
#include "badgerdross.h"
#include "round.h"

static struct badgerdross store;
static uint8_t *image;
static size_t length;

#ifdef FENCED
enum { UNTIL = BADGERDROSS_ASKED };
static int has_clwb;

__attribute__((target("clwb,clflushopt"))) static void persist(void *context, const uint8_t *from, size_t bytes)
{
    (void)context;
    if (bytes == 0)
        _mm_sfence();
    for (uintptr_t line = (uintptr_t)from / 64 * 64; bytes > 0 && line < (uintptr_t)from + bytes; line += 64)
        if (has_clwb)
            _mm_clwb((void *)line);
        else
            _mm_clflushopt((void *)line);
}

static size_t done(size_t answer)
{
    return answer ? answer : badgerdross_finish(&store, image, length, persist, NULL);
}
#else
enum { UNTIL = BADGERDROSS_END };

static size_t done(size_t answer)
{
    return answer;
}
#endif

static void must(size_t answer)
{
    if (answer) {
        fprintf(stderr, "from_c: turned back by %zu\n", answer);
        exit(1);
    }
}

void open_store(void)
{
#ifdef FENCED
    unsigned a, b = 0, c, d;
    __get_cpuid_count(7, 0, &a, &b, &c, &d);
    has_clwb = b >> 24 & 1;
#endif
    length = badgerdross_image_length(PAGES, SLOTS, PLACES, 0);
    int file = open(path, O_RDWR | O_CREAT, 0600);
    if (file < 0 || ftruncate(file, (off_t)length) != 0)
        exit(1);
    image = mmap(NULL, length, PROT_READ | PROT_WRITE, MAP_SHARED, file, 0);
    if (image == MAP_FAILED)
        exit(1);
    close(file);
    must(done(badgerdross_format(&store, image, length, PAGES, SLOTS, PLACES, 0, UNTIL)));
}

#ifdef ONE_CALL
void play(const struct put put[2])
{
    uint64_t writes[8], data[2][WORDS];
    size_t call;
    for (int i = 0; i < 2; i++) {
        writes[4 * i] = put[i].page;
        writes[4 * i + 1] = put[i].line;
        writes[4 * i + 2] = 0;
        writes[4 * i + 3] = sizeof data[i];
        memcpy(data[i], put[i].word, sizeof data[i]);
    }
    size_t room = BADGERDROSS_CHECKPOINT | BADGERDROSS_FREE;
    must(badgerdross_round(&store, image, length, 0, writes, 8, (const uint8_t *)data, sizeof data, room, &call));
}
#else
static void empty_journal(void)
{
    must(done(badgerdross_checkpoint(&store, image, length, UNTIL)));
}

static void free_slot(void)
{
    size_t answer = done(badgerdross_free_slot(&store, image, length, UNTIL));
    if (answer == BADGERDROSS_JOURNAL_FULL) {
        empty_journal();
        answer = done(badgerdross_free_slot(&store, image, length, UNTIL));
    }
    must(answer);
}

static size_t write_line(const struct put *put)
{
    return done(badgerdross_write(&store, image, length, 0, put->page, put->line, 0, (const uint8_t *)put->word, 64, UNTIL));
}

void play(const struct put put[2])
{
    must(badgerdross_begin(&store, 0));
    for (int i = 0; i < 2; i++) {
        size_t answer = write_line(&put[i]);
        if (answer == BADGERDROSS_NO_FREE_SLOT) {
            free_slot();
            answer = write_line(&put[i]);
        }
        must(answer);
    }
    size_t answer = done(badgerdross_commit(&store, image, length, 0, UNTIL));
    if (answer == BADGERDROSS_JOURNAL_FULL) {
        empty_journal();
        answer = done(badgerdross_commit(&store, image, length, 0, UNTIL));
    }
    must(answer);
}
#endif

void show(unsigned page, unsigned line, uint64_t word[WORDS])
{
    must(badgerdross_recall(page, line, image, length, (uint8_t *)word, 64));
}

uint64_t bytes_stored(void)
{
    return 0;
}

void close_store(void)
{
    munmap(image, length);
}
