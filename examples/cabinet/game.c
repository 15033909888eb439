/*
 * The bandit's rules over the store. A spin is a list of small steps, each whole or absent by itself: the bet (an event),
 * the round (reels, record and bonus in one commit), the win (an event), the count (an event). The record and the meters
 * tell which of them are still due, so go_on does the same after a bet and after a power cut.
 */
#include "game.h"

#include <fcntl.h>
#include <stdio.h>
#include <stdlib.h>
#include <sys/file.h>
#include <sys/mman.h>
#include <unistd.h>

enum { GAME = 0, MODULUS = 100000000, COUNT_MODULUS = 1000000 }; /* the writer of the rounds; events are writer 1's */

static struct badgerdross store;
static uint8_t *image;
static size_t length;
static uint64_t seed;
static char words[201];
static uint64_t moduli[24];

/* ---- the memory: a mapped file, so what lies in between is the page cache. It keeps all stores if only the program dies.
 * Against a power cut each fence waits until the pages told since the last one are on the disk. For other memory only
 * this function changes: docs/C.md has it for clwb and for a bus. */

static void persist(void *context, const uint8_t *from, size_t bytes)
{
    static size_t first = SIZE_MAX, end = 0;
    (void)context;
    if (bytes > 0) {
        size_t at = (size_t)(from - image);
        first = at < first ? at : first;
        end = at + bytes > end ? at + bytes : end;
    } else if (first < end) {
        first -= first % (size_t)sysconf(_SC_PAGESIZE);
        if (msync(image + first, end - first, MS_SYNC) != 0) {
            perror("the memory");
            exit(1);
        }
        first = SIZE_MAX, end = 0;
    }
}

void map_memory(const char *path)
{
    length = badgerdross_image_length(PAGES, SLOTS, PLACES, ENTRIES);
    int file = open(path, O_RDWR | O_CREAT, 0600); /* it stays open: it holds the lock */
    off_t bytes = file < 0 ? -1 : lseek(file, 0, SEEK_END);
    if (bytes > 0 && bytes != (off_t)length) {
        fprintf(stderr, "%s: not this cabinet's memory\n", path);
        exit(1);
    }
    if (bytes < 0 || flock(file, LOCK_EX | LOCK_NB) != 0 || ftruncate(file, (off_t)length) != 0 ||
        (image = mmap(NULL, length, PROT_READ | PROT_WRITE, MAP_SHARED, file, 0)) == MAP_FAILED) {
        perror(path);
        exit(1);
    }
}

/* ---- calls of the store */

/* Every operation is asked for, and then its stores are made with fences around each one that decides. */
static size_t done(size_t answer)
{
    return answer == BADGERDROSS_TAKEN ? badgerdross_finish(&store, image, length, persist, NULL) : answer;
}

/* A full journal and no free slot are no failures: the game makes room and asks again. */
static int made_room(size_t answer)
{
    if (answer != BADGERDROSS_NO_FREE_SLOT && answer != BADGERDROSS_JOURNAL_FULL)
        return 0;
    if (answer == BADGERDROSS_NO_FREE_SLOT)
        answer = done(badgerdross_free_slot(&store, image, length, BADGERDROSS_ASKED));
    if (answer == BADGERDROSS_JOURNAL_FULL)
        answer = done(badgerdross_checkpoint(&store, image, length, BADGERDROSS_ASKED));
    return answer == BADGERDROSS_TAKEN;
}

/* Of a refused call the library composes the sentence, on the state that refused it. */
static size_t noted(size_t answer, struct badgerdross_refusal refusal)
{
    size_t bytes = 0;
    refusal.number = answer;
    if (answer != BADGERDROSS_TAKEN) {
        badgerdross_sentence(&store, &refusal, (uint8_t *)words, 200, &bytes);
        words[bytes] = 0;
    }
    return answer;
}

static size_t event(size_t kind, size_t number, uint64_t amount)
{
    size_t answer;
    do
        answer = done(badgerdross_event(&store, image, length, kind, number, amount, moduli, 24, BADGERDROSS_ASKED));
    while (made_room(answer));
    return noted(answer, (struct badgerdross_refusal){.call = BADGERDROSS_CALL_EVENT, .kind = kind, .meter = number});
}

static size_t put(size_t page, size_t line, const void *bytes)
{
    size_t answer;
    do
        answer = done(badgerdross_write(&store, image, length, GAME, page, line, 0, bytes, 64, BADGERDROSS_ASKED));
    while (made_room(answer));
    return noted(answer, (struct badgerdross_refusal){.call = BADGERDROSS_CALL_WRITE, .writer = GAME, .page = page, .line = line});
}

static size_t commit(void)
{
    size_t answer;
    do
        answer = done(badgerdross_commit(&store, image, length, GAME, BADGERDROSS_ASKED));
    while (made_room(answer));
    return noted(answer, (struct badgerdross_refusal){.call = BADGERDROSS_CALL_COMMIT, .writer = GAME});
}

void recall_line(size_t page, size_t line, void *to)
{
    size_t answer = badgerdross_recall(page, line, image, length, to, 64);
    if (noted(answer, (struct badgerdross_refusal){.call = BADGERDROSS_CALL_RECALL, .page = page, .line = line})) {
        fprintf(stderr, "%s\n", words);
        exit(1);
    }
}

const char *sentence(void) { return words; }

uint64_t meter(size_t number)
{
    uint64_t line[8];
    recall_line(METERS, number, line);
    return line[0];
}

struct round last_round(void)
{
    struct glass glass;
    struct round round;
    recall_line(GLASS, 0, &glass);
    recall_line(ROUNDS, glass.number % ROUND_COUNT, &round);
    return round;
}

/* ---- a round: drawn first, then stored in one commit */

/* The generator stands in for a studio's own. What it draws depends on nothing but seed, round and place. */
static uint64_t drawn(uint64_t round, uint64_t place)
{
    uint64_t z = seed + (100 * round + place) * 0x9E3779B97F4A7C15;
    z = (z ^ z >> 30) * 0xBF58476D1CE4E5B9;
    z = (z ^ z >> 27) * 0x94D049BB133111EB;
    return z ^ z >> 31;
}

static uint64_t pays(const uint8_t line[3])
{
    static const uint64_t three[SYMBOLS] = {[SEVEN] = 50, [BAR] = 30, [BELL] = 15, [PLUM] = 10, [CHERRY] = 8, [LEMON] = 6};
    if (line[0] == line[1] && line[1] == line[2])
        return three[line[0]];
    return (line[0] == CHERRY) + (line[1] == CHERRY) + (line[2] == CHERRY) == 2 ? 2 : 0;
}

static void draw_round(struct round *round, struct glass *glass, struct scene scenes[SCENE_COUNT])
{
    static const uint8_t reel[8] = {SEVEN, CHERRY, BAR, PLUM, BELL, CHERRY, STAR, LEMON};
    glass->number = round->number;
    for (size_t i = 0; i < 3; i++) {
        size_t stop = drawn(round->number, i) % 8;
        for (size_t row = 0; row < 3; row++)
            glass->window[row][i] = reel[(stop + row + 7) % 8];
        round->line[i] = reel[stop];
    }
    round->win = round->bet * pays(round->line);
    int stars = (round->line[0] == STAR) + (round->line[1] == STAR) + (round->line[2] == STAR);
    round->scenes = stars >= 2 ? SCENE_COUNT : 0;
    for (size_t i = 0; i < round->scenes; i++) {
        uint64_t prize = drawn(round->number, 3 + i) % 12;
        scenes[i] = (struct scene){.number = round->number, .prize = prize < 4 ? round->bet * prize : 0};
        round->win += scenes[i].prize;
    }
}

/* Whole or not at all. A bonus writes more pages than there are slots: it is a wide round, by the same calls. */
static size_t store_round(const struct round *round, const struct glass *glass, const struct scene *scenes)
{
    size_t answer = round->scenes ? badgerdross_begin_wide(&store, GAME) : badgerdross_begin(&store, GAME);
    if (noted(answer, (struct badgerdross_refusal){.call = BADGERDROSS_CALL_BEGIN, .writer = GAME}))
        return answer;
    answer = put(ROUNDS, round->number % ROUND_COUNT, round);
    if (answer == BADGERDROSS_TAKEN)
        answer = put(GLASS, 0, glass);
    for (size_t i = 0; i < round->scenes && answer == BADGERDROSS_TAKEN; i++)
        answer = put(SCENES + i, 0, &scenes[i]);
    if (answer == BADGERDROSS_TAKEN)
        answer = commit();
    if (answer != BADGERDROSS_TAKEN)
        badgerdross_abort(&store, GAME);
    return answer;
}

static size_t play_round(const struct round *last, uint64_t bet)
{
    struct round round = {.number = last->number + 1, .bet = bet, .bets = (last->bets + bet) % MODULUS};
    struct glass glass = {0};
    struct scene scenes[SCENE_COUNT] = {{0}};
    draw_round(&round, &glass, scenes);
    round.wins = (last->wins + round.win) % MODULUS;
    return store_round(&round, &glass, scenes);
}

/* Does what of the last bet is still due, each step once: a bet without its round, a win that is not paid, a game that is
 * not counted. A power cut anywhere in it leaves one of these, and the next start calls it again. */
static size_t go_on(void)
{
    struct round last = last_round();
    size_t answer = BADGERDROSS_TAKEN;
    uint64_t bet = (meter(BETS) + MODULUS - last.bets) % MODULUS;
    if (bet > 0) {
        answer = play_round(&last, bet);
        last = last_round();
    }
    uint64_t win = (last.wins + MODULUS - meter(WINS)) % MODULUS;
    if (answer == BADGERDROSS_TAKEN && win > 0)
        answer = event(BADGERDROSS_WON, 0, win);
    if (answer == BADGERDROSS_TAKEN && meter(GAMES_PLAYED) != last.number % COUNT_MODULUS)
        answer = event(BADGERDROSS_COUNT, GAMES_PLAYED, 1);
    return answer;
}

/* ---- what the player does */

size_t insert_coins(uint64_t amount) { return event(BADGERDROSS_CASH_IN, 0, amount); }

size_t pay_out(void) { return event(BADGERDROSS_CASH_OUT, 0, meter(CREDIT)); }

size_t spin(uint64_t bet)
{
    size_t answer = go_on(); /* nothing is due, unless a win found no room in the credit */
    if (answer == BADGERDROSS_TAKEN)
        answer = event(BADGERDROSS_BET, 0, bet);
    return answer == BADGERDROSS_TAKEN ? go_on() : answer;
}

void start(uint64_t seed_of_draws)
{
    seed = seed_of_draws;
    for (size_t i = 0; i < 24; i++)
        moduli[i] = i < 5 ? MODULUS : i < 15 ? COUNT_MODULUS : 10000;
    size_t answer = badgerdross_mount(&store, image, length);
    if (answer == BADGERDROSS_UNKNOWN_LAYOUT) /* a new file, or one whose format was cut */
        answer = badgerdross_format(&store, image, length, PAGES, SLOTS, PLACES, ENTRIES, BADGERDROSS_ASKED);
    answer = done(answer); /* of a format, or of a wide round that was cut in its commit */
    if (noted(answer, (struct badgerdross_refusal){.call = BADGERDROSS_CALL_MOUNT})) {
        fprintf(stderr, "%s\n", words);
        exit(1);
    }
    go_on(); /* what is refused stays due, and the next spin says so */
}
