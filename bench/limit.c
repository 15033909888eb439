// The limit: a round's 25 words stored and nothing else. Two lines, two records of four words, and the journal's head.
#include <string.h>
#include "round.h"

static uint64_t pages[PAGES][LINES][WORDS], journal[PLACES][4];
static volatile uint64_t head;
static uint64_t stored;

void open_store(void) {}

void play(const struct put put[2])
{
    for (int i = 0; i < 2; i++) {
        volatile uint64_t *line = pages[put[i].page][put[i].line];
        for (int k = 0; k < WORDS; k++)
            line[k] = put[i].word[k];
    }
    uint64_t at = head;
    for (int i = 0; i < 2; i++) {
        volatile uint64_t *record = journal[(at + i) % PLACES];
        for (int k = 0; k < 4; k++)
            record[k] = at + k;
    }
    head = at + 2;
    stored += 8 * 25;
}

void show(unsigned page, unsigned line, uint64_t word[WORDS])
{
    memcpy(word, pages[page][line], 64);
}

uint64_t bytes_stored(void)
{
    return stored;
}

void close_store(void) {}
