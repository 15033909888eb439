// Plays N rounds on one store and prints what crates/rounds prints of its own, with bytes for stores:
//   PROGRAM N STAY FILE
// With TIMED set it sums nothing up: reading all pages of a large store takes longer than the rounds.
#include <inttypes.h>
#include <stdio.h>
#include <stdlib.h>
#include <string.h>
#include <unistd.h>
#include "round.h"

char path[4096];

static void fill(struct put *put, unsigned page, unsigned line, uint64_t word)
{
    put->page = page;
    put->line = line;
    for (int k = 0; k < WORDS; k++)
        put->word[k] = word;
}

static uint64_t checksum(void)
{
    const uint64_t modulus = 4294967291u;
    uint64_t sum = 0, word[WORDS];
    for (unsigned page = 0; page < PAGES; page++)
        for (unsigned line = 0; line < LINES; line++) {
            show(page, line, word);
            for (int k = 0; k < WORDS; k++)
                sum = (31 * sum + word[k] % modulus) % modulus;
        }
    return sum;
}

// Where the store's file is mapped, for count.c.
static void show_mapping(void)
{
    char text[8192];
    FILE *maps = fopen("/proc/self/maps", "r");
    while (maps && fgets(text, sizeof text, maps)) {
        text[strcspn(text, "\n")] = 0;
        char *name = strchr(text, '/');
        if (name && !strcmp(name, path))
            fprintf(stderr, "mapped %s\n", strtok(text, " "));
    }
    if (maps)
        fclose(maps);
}

int main(int argc, char **argv)
{
    if (argc != 4)
        return fprintf(stderr, "%s N STAY FILE\n", argv[0]), 2;
    uint64_t rounds = strtoull(argv[1], 0, 10), stay = strtoull(argv[2], 0, 10);
    snprintf(path, sizeof path, "%s", argv[3]);
    unlink(path);
    open_store();
    if (getenv("COUNTED"))
        show_mapping();
    uint64_t before = bytes_stored();
    for (uint64_t r = 0; r < rounds; r++) {
        unsigned page = stay ? 2 * (r / stay % (PAGES / 2)) : 0;
        struct put put[2];
        fill(&put[0], page, r % 24, 2 * r + 1);
        fill(&put[1], page + 1, r % LINES, 2 * r + 2);
        play(put);
    }
    uint64_t stored = bytes_stored() - before;
    if (getenv("COUNTED")) // what follows would be listed for nothing
        return fprintf(stderr, "played\n"), 0;
    uint64_t sum = getenv("TIMED") ? 0 : checksum();
    printf("%" PRIu64 " rounds, %" PRIu64 " to a pair of pages: %" PRIu64 " bytes, checksum %" PRIu64 "\n", rounds, stay, stored, sum);
    close_store();
    unlink(path);
}
