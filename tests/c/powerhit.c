/*
 * Powerhit's scripts played through the calls for C (documents 01 and 02, L6): prints what the proved program prints.
 *
 *     powerhit run|finish < script      how an operation that no K cuts makes its stores
 */
#define _GNU_SOURCE
#include <stdio.h>
#include <stdlib.h>
#include <string.h>

#include "badgerdross.h"

enum { ROOM = 65536, MOST = 69, DIGITS = 9 };

static struct badgerdross store;
static uint64_t words[ROOM / 8];
static uint8_t *const image = (uint8_t *)words;

static int formatted, cutting, by_finish;
static size_t cut;

/* ---- a line: a letter and numbers, or a line of another form */

static char letter;
static size_t count, number[MOST];

static int parse(const char *text, size_t length)
{
    letter = text[0];
    count = 0;
    if (length == 0 || letter == ',')
        return 0;
    for (size_t at = 1; at < length;) {
        size_t digits = 0, value = 0;
        if (text[at++] != ',' || count == MOST)
            return 0;
        for (; at < length && text[at] >= '0' && text[at] <= '9'; at++, digits++)
            value = digits < DIGITS ? 10 * value + (size_t)(text[at] - '0') : value;
        if (digits == 0 || digits > DIGITS)
            return 0;
        number[count++] = value;
    }
    return 1;
}

static int has_form(void)
{
    static const struct { char letter; size_t count; } forms[] = {{'B', 1}, {'C', 1}, {'A', 1}, {'R', 4}, {'D', 1}, {'P', 0}, {'X', 0}, {'K', 1}};
    if (letter == 'F')
        return count == 3;
    if (!formatted)
        return 0;
    if (letter == 'W') {
        for (size_t i = 5; i < count; i++)
            if (number[i] > 255)
                return 0;
        return count >= 5;
    }
    for (size_t i = 0; i < sizeof forms / sizeof *forms; i++)
        if (forms[i].letter == letter)
            return forms[i].count == count;
    return 0;
}

/* ---- the calls, each asked for */

static size_t write_line(void)
{
    uint8_t data[64];
    for (size_t i = 5; i < count; i++)
        data[i - 5] = (uint8_t)number[i];
    /* the call takes all of its data: a length beyond them is no call of it */
    if (number[4] > count - 5)
        return BADGERDROSS_BAD_ARGUMENT;
    return badgerdross_write(&store, image, ROOM, number[0], number[1], number[2], number[3], data, number[4], BADGERDROSS_ASKED);
}

static size_t call(void)
{
    switch (letter) {
    case 'F': return badgerdross_format(&store, image, ROOM, number[0], number[1], number[2], 0, BADGERDROSS_ASKED);
    case 'B': return badgerdross_begin(&store, number[0]);
    case 'A': return badgerdross_abort(&store, number[0]);
    case 'W': return write_line();
    case 'C': return badgerdross_commit(&store, image, ROOM, number[0], BADGERDROSS_ASKED);
    case 'D': return badgerdross_consolidate(&store, image, ROOM, number[0], BADGERDROSS_ASKED);
    case 'P': return badgerdross_checkpoint(&store, image, ROOM, BADGERDROSS_ASKED);
    default: return badgerdross_mount(&store, image, ROOM);
    }
}

/* ---- their stores */

static void count_bytes(void *context, const uint8_t *from, size_t bytes)
{
    (void)from;
    *(size_t *)context += bytes;
}

static size_t make_stores(size_t *answer)
{
    struct badgerdross_next next;
    size_t made = 0;
    if (badgerdross_next_store(&store, image, ROOM, &next) != BADGERDROSS_TAKEN)
        return 0;
    if (cutting) {
        badgerdross_run(&store, image, ROOM, cut, &made);
        *answer = badgerdross_mount(&store, image, ROOM);
    } else if (by_finish) {
        *answer = badgerdross_finish(&store, image, ROOM, count_bytes, &made);
        made /= 8;
    } else {
        badgerdross_run(&store, image, ROOM, SIZE_MAX, &made);
    }
    if (!cutting && made != next.left)
        fprintf(stderr, "powerhit: %zu stores made, %zu told\n", made, next.left), exit(1);
    cutting = 0;
    formatted = *answer == BADGERDROSS_TAKEN;
    return made;
}

static void play(size_t line)
{
    if (letter == 'K') {
        cutting = 1;
        cut = number[0];
        printf("%zu,K,0,0,-\n", line);
    } else if (letter == 'R') {
        uint8_t target[64];
        size_t answer = badgerdross_read(&store, image, ROOM, number[0], number[1], number[2], target, 64);
        if (answer == BADGERDROSS_TAKEN && number[3] > 63)
            answer = BADGERDROSS_BAD_ARGUMENT;
        if (answer == BADGERDROSS_TAKEN)
            printf("%zu,R,0,0,%d\n", line, target[number[3]]);
        else
            printf("%zu,R,%zu,0,-\n", line, answer);
    } else {
        size_t answer = call();
        size_t made = answer == BADGERDROSS_TAKEN ? make_stores(&answer) : 0;
        printf("%zu,%c,%zu,%zu,-\n", line, letter, answer, made);
    }
}

int main(int arguments, char **argument)
{
    if (arguments != 2)
        return 2;
    by_finish = strcmp(argument[1], "finish") == 0;
    char *text = NULL;
    size_t room = 0;
    puts("line,call,answer,stores,byte");
    ssize_t length;
    for (size_t line = 1; (length = getline(&text, &room, stdin)) > 0; line++) {
        size_t end = (size_t)length - (text[length - 1] == '\n');
        if (parse(text, end) && has_form())
            play(line);
        else
            printf("%zu,?,?,0,-\n", line);
    }
    free(text);
    return 0;
}
