/*
 * The service screen from C: each sentence of every call and number that there is reads back as what it was composed of, a damaged one as
 * nothing; and of two refused calls the sentence names the lowest writer in the way.
 */
#include <stdio.h>
#include <string.h>

#include "badgerdross.h"

static struct badgerdross store;
static uint64_t words[65536 / 8];
static uint8_t *const image = (uint8_t *)words;
static size_t length;

static size_t composed, differ;

/* Composes and reads back; fields that the call does not take read back as 0. */
static void there_and_back(struct badgerdross_refusal refusal)
{
    uint8_t text[200];
    size_t bytes = 0;
    struct badgerdross_refusal back = {0};
    if (badgerdross_sentence(&store, &refusal, text, sizeof text, &bytes) != BADGERDROSS_TAKEN)
        return;
    composed++;
    size_t answer = badgerdross_reading(text, bytes, &back);
    int same = back.call == refusal.call && back.number == refusal.number && (back.writer == 0 || back.writer == refusal.writer) &&
               (back.page == 0 || back.page == refusal.page) && (back.line == 0 || back.line == refusal.line);
    struct badgerdross_refusal kept = back;
    size_t shorter = badgerdross_reading(text, bytes - 1, &back);
    text[bytes / 2] ^= 1;
    size_t damaged = badgerdross_reading(text, bytes, &back);
    differ += answer != 0 || !same || shorter != BADGERDROSS_BAD_ARGUMENT || damaged != BADGERDROSS_BAD_ARGUMENT ||
              memcmp(&kept, &back, sizeof back) != 0;
}

static void show(size_t call, size_t number, size_t writer, size_t page, size_t line)
{
    struct badgerdross_refusal refusal = {.call = call, .number = number, .writer = writer, .page = page, .line = line};
    uint8_t text[200];
    size_t bytes = 0, answer = badgerdross_sentence(&store, &refusal, text, sizeof text, &bytes);
    printf("%zu %.*s\n", answer, (int)bytes, (const char *)text);
}

int main(void)
{
    uint8_t data[64] = {1};
    length = badgerdross_image_length(8, 2, 4, 0);
    badgerdross_format(&store, image, length, 8, 2, 4, 0, BADGERDROSS_END);
    for (size_t call = 0; call < 25; call++)
        for (size_t number = 0; number < 40; number++)
            there_and_back((struct badgerdross_refusal){.call = call, .number = number, .writer = 2, .page = 7, .line = 63});
    for (size_t writer = 3; writer >= 2; writer--) {
        badgerdross_begin(&store, writer);
        badgerdross_write(&store, image, length, writer, 3, writer == 2 ? 5 : 6, 0, data, 64, BADGERDROSS_END);
    }
    badgerdross_begin(&store, 0);
    show(BADGERDROSS_CALL_WRITE, badgerdross_write(&store, image, length, 0, 3, 5, 0, data, 64, BADGERDROSS_END), 0, 3, 5);
    show(BADGERDROSS_CALL_CONSOLIDATE, badgerdross_consolidate(&store, image, length, 3, BADGERDROSS_END), 0, 3, 0);
    printf("service: %zu sentences there and back, %zu differ\n", composed, differ);
    return differ > 0;
}
