/*
 * Every store that the compiled library makes into the image. The image stands in memory that may not be written, so that each
 * instruction that stores there is stopped before it and then let through alone, and the bytes that it wrote are seen. Plays the calls
 * of model/src/bin/model-stores.rs and prints the lines that it prints.
 *
 *     stores end|fence|run|threes|step < calls       how the stores of an operation are asked for
 *     stores once < calls                            the lines F alone, each a format in one call over bytes of no image, and a stepped one
 *
 * Ends with status 1 where a store that decides (words 3 to 6) is not made by one instruction of 8 aligned bytes; where a step is not one
 * such store, to the word that next_store told; where what is to stop before a store that decides makes it; and where a call that is to
 * make no store makes one. What the lines themselves show, the order of the stores and that none is left out or made twice, is for who
 * compares them.
 */
#define _GNU_SOURCE
#include <signal.h>
#include <stdio.h>
#include <stdlib.h>
#include <string.h>
#include <sys/mman.h>
#include <ucontext.h>

#include "badgerdross.h"

enum { ROOM = 1 << 20, NEAR = 64, MARK = 0xEE, TRAP_FLAG = 0x100, MOST = 1 << 17, NO_CUT = -1 };

static struct badgerdross store;
static uint8_t *image;
static size_t length;

static void fail(const char *what)
{
    fprintf(stderr, "stores: %s\n", what);
    exit(1);
}

static uint64_t word_at(size_t word)
{
    uint64_t value = 0;
    for (int i = 7; i >= 0; i--)
        value = value << 8 | image[8 * word + (size_t)i];
    return value;
}

/* ---- what each instruction wrote: its first and last byte, and the first one's word after it */

static struct made {
    size_t first, last;
    uint64_t value;
} made[MOST];
static size_t made_count;

/* Around the address that an instruction stores to all bytes are marked while it runs; those that keep the mark were not written. No
 * byte that the calls store is the mark. */
static uint8_t kept[2 * NEAR];
static size_t near_first, near_end;

static void before_store(int number, siginfo_t *info, void *context)
{
    (void)number;
    size_t at = (size_t)((uint8_t *)info->si_addr - image);
    if (at >= length)
        _Exit(3);
    mprotect(image, ROOM, PROT_READ | PROT_WRITE);
    near_first = at < NEAR ? 0 : at - NEAR;
    near_end = at + NEAR < length ? at + NEAR : length;
    memcpy(kept, image + near_first, near_end - near_first);
    memset(image + near_first, MARK, near_end - near_first);
    ((ucontext_t *)context)->uc_mcontext.gregs[REG_EFL] |= TRAP_FLAG;
}

static void after_store(int number, siginfo_t *info, void *context)
{
    (void)number, (void)info;
    struct made m = {.first = length};
    for (size_t i = near_first; i < near_end; i++)
        if (image[i] == MARK) {
            image[i] = kept[i - near_first];
        } else {
            m.first = m.first == length ? i : m.first;
            m.last = i;
        }
    if (m.first == length || made_count == MOST)
        _Exit(4);
    m.value = word_at(m.first / 8);
    made[made_count++] = m;
    mprotect(image, ROOM, PROT_READ);
    ((ucontext_t *)context)->uc_mcontext.gregs[REG_EFL] &= ~(greg_t)TRAP_FLAG;
}

static void watch(void)
{
    struct sigaction action = {.sa_flags = SA_SIGINFO};
    action.sa_sigaction = before_store;
    sigaction(SIGSEGV, &action, NULL);
    action.sa_sigaction = after_store;
    sigaction(SIGTRAP, &action, NULL);
}

static int one_word(struct made m) { return m.first % 8 == 0 && m.last == m.first + 7; }

static int deciding(struct made m) { return m.last >= 24 && m.first < 56; }

static void none_decides(size_t from)
{
    for (size_t i = from; i < made_count; i++)
        if (deciding(made[i]))
            fail("what stops before the store that decides made it");
}

/* ---- the words stored, as ranges: in the order of the stores, or those between two stores that decide as a set */

static size_t range_first, range_end;

static void end_range(void)
{
    if (range_end)
        printf(" %zu-%zu", range_first, range_end - 1);
    range_end = 0;
}

static void put_in_range(size_t word)
{
    if (range_end == 0 || range_end != word) {
        end_range();
        range_first = word;
    }
    range_end = word + 1;
}

static uint8_t group[ROOM / 8];

static void end_group(void)
{
    for (size_t word = 0; word < length / 8; word++)
        if (group[word]) {
            put_in_range(word);
            group[word] = 0;
        }
    end_range();
}

static void print_stores(int ordered)
{
    for (size_t i = 0; i < made_count; i++) {
        struct made m = made[i];
        if ((ordered || deciding(m)) && !one_word(m))
            fail("a step, or a store that decides, is not one store of 8 aligned bytes");
        if (deciding(m)) {
            end_group();
            printf(" %zu=%llu", m.first / 8, (unsigned long long)m.value);
        } else {
            for (size_t word = m.first / 8; word <= m.last / 8; word++)
                if (ordered)
                    put_in_range(word);
                else
                    group[word] = 1;
        }
    }
    end_group();
}

/* ---- the calls */

static size_t number[8];

static size_t format(void)
{
    length = badgerdross_image_length(number[0], number[1], number[2], number[3]);
    memset(image, 0, ROOM);
    return badgerdross_format(&store, image, length, number[0], number[1], number[2], number[3], BADGERDROSS_END);
}

static size_t write_line(size_t until)
{
    uint8_t data[64];
    for (size_t i = 0; i < 64; i++)
        data[i] = (uint8_t)((number[5] + 7 * i) % 200);
    return badgerdross_write(&store, image, length, number[0], number[1], number[2], number[3], data, number[4], until);
}

static size_t event(size_t until)
{
    uint64_t moduli[24];
    for (int m = 0; m < 24; m++)
        moduli[m] = m < 5 ? 100000000 : m < 15 ? 1000000 : 10000;
    return badgerdross_event(&store, image, length, number[0], number[1], number[2], moduli, 24, until);
}

static size_t call(char letter, size_t until)
{
    switch (letter) {
    case 'F': return format();
    case 'M': return badgerdross_mount(&store, image, length);
    case 'B': return badgerdross_begin(&store, number[0]);
    case 'A': return badgerdross_abort(&store, number[0]);
    case 'V': return badgerdross_begin_wide(&store, number[0]);
    case 'W': return write_line(until);
    case 'C': return badgerdross_commit(&store, image, length, number[0], until);
    case 'I': return badgerdross_prepare(&store, image, length, number[0], until);
    case 'J': return badgerdross_confirm(&store, image, length, number[0], until);
    case 'Z': return badgerdross_withdraw(&store, image, length, number[0]);
    case 'D': return badgerdross_consolidate(&store, image, length, number[0], until);
    case 'X': return badgerdross_free_slot(&store, image, length, until);
    case 'P': return badgerdross_checkpoint(&store, image, length, until);
    case 'K': return event(until);
    default: fail("no such call");
    }
    return 0;
}

/* One step makes one store, the one that next_store told. */
static void step(size_t word, size_t decides)
{
    size_t from = made_count;
    if (badgerdross_step(&store, image, length) != 0)
        fail("a step was turned back");
    if (made_count != from + 1 || made[from].first != 8 * word || deciding(made[from]) != (int)decides)
        fail("a step did not make the one store that was told");
}

/* What is pending, store by store; or up to each store that decides, and that one by itself. */
static void finish_by_steps(int fences)
{
    struct badgerdross_next next;
    while (badgerdross_next_store(&store, image, length, &next) == 0)
        if (fences && next.before > 0) {
            size_t from = made_count, made_now;
            badgerdross_run(&store, image, length, next.before, &made_now);
            none_decides(from);
        } else {
            step(next.word, next.decides);
        }
}

/* What is pending, run to its end as the mode says. */
static void finish(char mode)
{
    if (mode == 's' || mode == 'f')
        finish_by_steps(mode == 'f');
    else
        for (size_t made_now; badgerdross_run(&store, image, length, mode == 't' ? 3 : SIZE_MAX, &made_now) == 0;)
            ;
}

/* The call's operation is cut after so many stores, and the image mounted. */
static size_t play_cut(char letter, size_t cut)
{
    mprotect(image, ROOM, PROT_READ | PROT_WRITE);
    size_t answer = call(letter, BADGERDROSS_ASKED);
    size_t made_now;
    badgerdross_run(&store, image, length, cut, &made_now);
    mprotect(image, ROOM, PROT_READ);
    if (badgerdross_mount(&store, image, length) != 0)
        fail("a mount was turned back");
    return answer;
}

static size_t play(char letter, char mode)
{
    mprotect(image, ROOM, letter == 'F' ? PROT_READ | PROT_WRITE : PROT_READ);
    size_t answer = call(letter, mode == 'e' ? BADGERDROSS_END : mode == 'f' ? BADGERDROSS_FENCE : BADGERDROSS_ASKED);
    mprotect(image, ROOM, PROT_READ);
    if (mode == 'f')
        none_decides(0);
    else if (mode != 'e' && made_count > 0)
        fail("a call that asks made a store");
    return answer;
}

/* A format in one call: the layout word is stored first, as 0, and last, each time by one instruction and by none between, though nothing
 * reads it there; and every other word is stored. */
static int layout_store(struct made m) { return one_word(m) && m.first == 24; }

/* The same asked for and stepped: one store a step, to the words in their order, the layout word first and last. */
static void format_by_steps(void)
{
    made_count = 0;
    if (badgerdross_format(&store, image, length, number[0], number[1], number[2], number[3], BADGERDROSS_ASKED) != 0 || made_count != 0)
        fail("a format that was asked for was turned back, or made a store");
    size_t all = length / 8 + 1;
    struct badgerdross_next next;
    for (size_t i = 0; badgerdross_next_store(&store, image, length, &next) == 0; i++) {
        size_t word = i == 0 || i == all - 1 ? 3 : i <= 3 ? i - 1 : i;
        if (badgerdross_step(&store, image, length) != 0 || made_count != i + 1 || !one_word(made[i]) || made[i].first != 8 * word)
            fail("a step of a format is not one store to the word that is its turn");
        if (next.word != word || next.decides != (word == 3) || next.left != all - i)
            fail("a step of a format was told otherwise");
    }
    if (made_count != all || made[0].value != 0 || made[all - 1].value == 0)
        fail("a format made other stores, or others first and last");
}

static void format_once(void)
{
    length = badgerdross_image_length(number[0], number[1], number[2], number[3]);
    for (size_t i = 0; i < ROOM; i++)
        image[i] = (uint8_t)(37 * i % 200);
    mprotect(image, ROOM, PROT_READ);
    if (badgerdross_format(&store, image, length, number[0], number[1], number[2], number[3], BADGERDROSS_END) != 0)
        fail("a format was turned back");
    struct made *last = made + made_count - 1;
    if (made_count < 3 || !layout_store(made[0]) || made[0].value != 0 || !layout_store(*last) || last->value == 0)
        fail("the first or the last store of a format is not one of the layout word");
    for (struct made *m = made + 1; m < last; m++)
        for (size_t word = m->first / 8; word <= m->last / 8; word++)
            group[word] = 1;
    for (size_t word = 0; word < length / 8; word++) {
        if (group[word] == (word == 3))
            fail("a format stored the layout word in between, or left out another");
        group[word] = 0;
    }
    printf("F %zu stored by %zu instructions\n", length / 8, made_count);
    format_by_steps();
    mprotect(image, ROOM, PROT_READ | PROT_WRITE);
}

static uint64_t hash(void)
{
    uint64_t h = 0xcbf29ce484222325;
    for (size_t i = 0; i < length; i++)
        h = (h ^ image[i]) * 0x100000001b3;
    return h;
}

int main(int count, char **arguments)
{
    char mode = count == 2 ? arguments[1][0] : 0;
    if (mode == 0 || strchr("efrtso", mode) == NULL)
        return 2;
    image = mmap(NULL, ROOM, PROT_READ | PROT_WRITE, MAP_PRIVATE | MAP_ANONYMOUS, -1, 0);
    watch();
    char text[256], letter;
    long cut = NO_CUT;
    for (int line = 1; fgets(text, sizeof text, stdin) != NULL; line++) {
        int at, n = 0;
        sscanf(text, "%c%n", &letter, &at);
        for (int more; n < 8 && sscanf(text + at, ",%zu%n", &number[n], &more) == 1; n++)
            at += more;
        made_count = 0;
        if (mode == 'o') {
            if (letter == 'F')
                format_once();
            continue;
        }
        size_t answer = letter == 'T' ? 0 : cut == NO_CUT ? play(letter, mode) : play_cut(letter, (size_t)cut);
        cut = letter == 'T' ? (long)number[0] : NO_CUT;
        finish(mode);
        printf("%d %c %zu", line, letter, answer);
        print_stores(mode == 's');
        printf(" %016llx\n", (unsigned long long)hash());
    }
    return 0;
}
