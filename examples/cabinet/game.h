/*
 * A one-armed bandit over the store. What of it is kept, and where: this is the map of the cabinet's memory.
 *
 *     page 0          the 24 meters, which events alone move
 *     page 1          line 0: the glass, the nine symbols behind the window
 *     page 2          the last 64 rounds, round n in line n % 64
 *     pages 3 to 18   line 0: one scene of the bonus each, more pages than there are slots: such a round is a wide one
 */
#ifndef GAME_H
#define GAME_H

#include <badgerdross.h>

enum { PAGES = 19, SLOTS = 4, PLACES = 16, ENTRIES = 20 };
enum { METERS = 0, GLASS = 1, ROUNDS = 2, SCENES = 3 };
enum { SCENE_COUNT = 16, ROUND_COUNT = 64, GAMES_PLAYED = 5 };
enum { CREDIT = 0, CASH_IN = 1, CASH_OUT = 2, BETS = 3, WINS = 4 };
enum symbol { SEVEN, CHERRY, BAR, PLUM, BELL, STAR, LEMON, SYMBOLS };

/* Each is one line of 64 bytes. A store never seen before is all zeros, so 0 is the number of no round. */
struct round {
    uint64_t number, bet, win;
    uint64_t bets, wins; /* what the meters of bets and wins show when this round is over */
    uint8_t line[3];     /* the symbols on the win line */
    uint8_t scenes;      /* 16 in a bonus, otherwise 0 */
    uint8_t spare[20];
};
struct glass {
    uint64_t number;
    uint8_t window[3][3]; /* row, reel */
    uint8_t spare[47];
};
struct scene {
    uint64_t number, prize;
    uint8_t spare[48];
};

/* Maps the file that is the memory. Then the screens of it can be drawn. */
void map_memory(const char *path);

/* Mounts the memory, or formats a new one, and goes on with the spin that was cut. Ends the program with the library's
 * sentence if the memory cannot be mounted. */
void start(uint64_t seed);

/* Each answers BADGERDROSS_TAKEN, or the number of the rule that it breaks: sentence() says it in words. */
size_t insert_coins(uint64_t amount);
size_t pay_out(void);
size_t spin(uint64_t bet);
const char *sentence(void);

/* The committed 64 bytes of a line, from the memory alone. */
void recall_line(size_t page, size_t line, void *to);
uint64_t meter(size_t number);
struct round last_round(void);

/* screens.c */
extern const char *const names[SYMBOLS];
void draw_glass(void);
void draw_bonus(void);
void draw_recall(void);

#endif
