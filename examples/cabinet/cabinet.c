/*
 * The cabinet: a one-armed bandit for a terminal. Its memory is a file; kill it whenever you like and start it again.
 *
 *     cabinet FILE              play: space spins, the other keys are on the screen
 *     cabinet -n ROUNDS FILE    plays so many rounds by itself, a line for each when it is over
 *     cabinet -r FILE           the recall screen of the memory as it is, and nothing else
 *     -s SEED                   of the draws; otherwise the clock's
 */
#include "game.h"

#include <stdio.h>
#include <stdlib.h>
#include <termios.h>
#include <time.h>
#include <unistd.h>

enum { COINS = 100, MOST_BET = 3, PAID_OUT_FROM = 250, CONTROL_C = 3, CONTROL_D = 4 };

/* ---- by itself: what it does next depends on the memory alone, so after a kill it goes on as if there had been none */

static void play_by_itself(unsigned long rounds)
{
    while (rounds > 0) {
        uint64_t number = last_round().number;
        if (meter(CREDIT) >= PAID_OUT_FROM)
            pay_out();
        if (spin(1 + number % MOST_BET) != BADGERDROSS_TAKEN) {
            printf("%s\n", sentence());
            if (insert_coins(COINS) != BADGERDROSS_TAKEN)
                exit(1);
            continue;
        }
        struct round last = last_round();
        printf("round %lu: %s %s %s, bet %lu, win %lu%s, credit %lu\n", last.number, names[last.line[0]],
               names[last.line[1]], names[last.line[2]], last.bet, last.win,
               last.scenes ? " with bonus" : "", meter(CREDIT));
        fflush(stdout);
        rounds--;
    }
}

/* ---- by keys */

static struct termios terminal;

static void restore_terminal(void) { tcsetattr(STDIN_FILENO, TCSANOW, &terminal); }

/* One key at a time, unechoed. Without a terminal the keys come from a file or a pipe. */
static void take_terminal(void)
{
    if (tcgetattr(STDIN_FILENO, &terminal) != 0)
        return;
    atexit(restore_terminal);
    struct termios raw = terminal;
    raw.c_lflag &= ~(tcflag_t)(ICANON | ECHO | ISIG);
    tcsetattr(STDIN_FILENO, TCSANOW, &raw);
}

static int key(void)
{
    unsigned char byte;
    fflush(stdout);
    return read(STDIN_FILENO, &byte, 1) == 1 ? byte : 'q';
}

static void clear_screen(void) { fputs("\033[H\033[2J", stdout); }

static void show_until_key(void (*draw)(void))
{
    clear_screen();
    draw();
    puts("\n    any key goes on");
    key();
}

static void spin_reels(uint64_t bet)
{
    uint64_t before = last_round().number;
    size_t answer = spin(bet);
    struct round last = last_round();
    if (last.number > before && last.scenes)
        show_until_key(draw_bonus);
    clear_screen();
    draw_glass();
    printf("\n    %s\n", answer != BADGERDROSS_TAKEN ? sentence() : last.win ? "You win!" : "");
}

static void play(void)
{
    uint64_t bet = 1;
    take_terminal();
    show_until_key(draw_recall);
    clear_screen();
    draw_glass();
    puts("\n");
    for (;;) {
        printf("\n    space spin   b bet %lu   i insert %d   c cash out   r recall   q quit\n", bet, COINS);
        int pressed = key();
        size_t answer = BADGERDROSS_TAKEN;
        if (pressed == 'q' || pressed == CONTROL_C || pressed == CONTROL_D)
            return;
        if (pressed == ' ') {
            spin_reels(bet);
            continue;
        }
        if (pressed == 'b')
            bet = bet % MOST_BET + 1;
        if (pressed == 'i')
            answer = insert_coins(COINS);
        if (pressed == 'c')
            answer = pay_out();
        if (pressed == 'r')
            show_until_key(draw_recall);
        clear_screen();
        draw_glass();
        printf("\n    %s\n", answer == BADGERDROSS_TAKEN ? "" : sentence());
    }
}

int main(int count, char **arguments)
{
    unsigned long rounds = 0;
    int recall_only = 0, option;
    uint64_t seed = (uint64_t)time(NULL);
    while ((option = getopt(count, arguments, "n:s:r")) != -1) {
        if (option == 'n')
            rounds = strtoul(optarg, NULL, 10);
        else if (option == 's')
            seed = strtoull(optarg, NULL, 10);
        else if (option == 'r')
            recall_only = 1;
        else
            return 2;
    }
    if (optind + 1 != count) {
        fprintf(stderr, "usage: cabinet [-n ROUNDS | -r] [-s SEED] FILE\n");
        return 2;
    }
    map_memory(arguments[optind]);
    if (recall_only) {
        draw_recall();
        return 0;
    }
    start(seed);
    if (rounds > 0)
        play_by_itself(rounds);
    else
        play();
    return 0;
}
