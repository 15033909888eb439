/* The screens, drawn from the memory alone: each line that they show is a committed one. */
#include "game.h"

#include <stdio.h>

const char *const names[SYMBOLS] = {"SEVEN", "CHERRY", "BAR", "PLUM", "BELL", "STAR", "LEMON"};

static void draw_window(const struct glass *glass)
{
    const char *edge = "    +----------+----------+----------+\n";
    fputs(edge, stdout);
    for (size_t row = 0; row < 3; row++) {
        fputs(row == 1 ? "  > " : "    ", stdout);
        for (size_t reel = 0; reel < 3; reel++)
            printf("|  %-7s ", glass->number ? names[glass->window[row][reel] % SYMBOLS] : "");
        puts(row == 1 ? "| <" : "|");
    }
    fputs(edge, stdout);
}

static void draw_scenes(void)
{
    struct scene scene;
    for (size_t i = 0; i < SCENE_COUNT; i++) {
        recall_line(SCENES + i, 0, &scene);
        printf(i % 8 ? "[%3lu]" : "    [%3lu]", scene.prize);
        if (i % 8 == 7)
            puts("");
    }
}

void draw_glass(void)
{
    struct glass glass;
    struct round last = last_round();
    recall_line(GLASS, 0, &glass);
    puts("  BADGER BANDIT\n");
    draw_window(&glass);
    printf("    win %-8lu  credit %lu\n\n", last.win, meter(CREDIT));
    printf("    in %lu  out %lu  bets %lu  wins %lu  games %lu\n", meter(CASH_IN),
           meter(CASH_OUT), meter(BETS), meter(WINS),
           meter(GAMES_PLAYED));
}

void draw_bonus(void)
{
    puts("  BONUS: two stars open 16 doors\n");
    draw_scenes();
    printf("\n    the bonus and the line pay %lu\n", last_round().win);
}

static void draw_older(uint64_t last)
{
    struct round round;
    puts("    before that");
    for (uint64_t number = last - 1; number > 0 && number + 5 >= last; number--) {
        recall_line(ROUNDS, number % ROUND_COUNT, &round);
        printf("    %6lu  %-6s %-6s %-6s  bet %-3lu win %lu%s\n", round.number,
               names[round.line[0] % SYMBOLS], names[round.line[1] % SYMBOLS], names[round.line[2] % SYMBOLS],
               round.bet, round.win, round.scenes ? " with bonus" : "");
    }
}

void draw_recall(void)
{
    struct glass glass;
    struct round last = last_round();
    recall_line(GLASS, 0, &glass);
    if (last.number == 0) {
        printf("  RECALL: no round was played\n    credit %lu\n", meter(CREDIT));
        return;
    }
    printf("  RECALL: round %lu\n\n", last.number);
    draw_window(&glass);
    printf("    bet %-4lu win %-6lu credit %lu\n\n", last.bet, last.win,
           meter(CREDIT));
    if (last.scenes)
        draw_scenes();
    if (last.number > 1)
        draw_older(last.number);
}
