/*
 * One spin of the bandit, its power cut after each of its stores in turn: what the recall screen shows then.
 *
 *     demo          a spin that wins on the line
 *     demo bonus    a spin with the bonus, which is a wide round
 *
 * It takes the game as it is, and the power supply into its own hand: badgerdross_finish is replaced by one that makes one
 * store at a time and goes no further than the power lasts. Ends with status 1 if a screen shows parts of two rounds.
 */
#include <badgerdross.h>
#include <setjmp.h>
#include <string.h>

static size_t power = SIZE_MAX; /* so many stores are left until it is gone */
static size_t last_word;        /* where the last one went */
static jmp_buf gone;

static size_t finish_while_there_is_power(struct badgerdross *state, uint8_t *memory, size_t bytes, badgerdross_persist *persist,
                                          void *context)
{
    struct badgerdross_next next;
    (void)persist, (void)context;
    while (badgerdross_next_store(state, memory, bytes, &next) == BADGERDROSS_TAKEN) {
        if (power == 0)
            longjmp(gone, 1);
        power--;
        last_word = next.word;
        badgerdross_step(state, memory, bytes);
    }
    return BADGERDROSS_TAKEN;
}
#define badgerdross_finish finish_while_there_is_power
#include "game.c"

static const char *where(size_t word)
{
    size_t journal = 8 + PAGES + 3 * SLOTS, frames = (journal + 4 * PLACES + 7) / 8 * 8;
    if (word < 8)
        return word == 4 ? "the journal's head" : word == 5 ? "the journal's tail" : "the count of entries";
    if (word < journal)
        return "the tables";
    if (word < frames)
        return "a record of the journal";
    return word < frames + 512 * (PAGES + SLOTS) ? "a copy of a line" : "an entry of the wide round";
}

/* What the screen shows, in one line; and whether all that it shows is of one round. */
static int screen_line(char *text, size_t room)
{
    struct glass glass;
    struct scene scene;
    struct round last = last_round();
    recall_line(GLASS, 0, &glass);
    int whole = glass.number == last.number && memcmp(glass.window[1], last.line, 3) == 0;
    for (size_t i = 0; i < last.scenes; i++) {
        recall_line(SCENES + i, 0, &scene);
        whole = whole && scene.number == last.number;
    }
    snprintf(text, room, "round %lu |%-6s|%-6s|%-6s| win %lu credit %lu%s", last.number, names[last.line[0]], names[last.line[1]],
             names[last.line[2]], last.win, meter(CREDIT), whole ? "" : "  TORN");
    return whole;
}

/* Plays until the next round is one of the kind to be shown. */
static void play_up_to(int bonus)
{
    insert_coins(100);
    for (;;) {
        struct round next = {.number = last_round().number + 1, .bet = 1};
        struct glass glass;
        struct scene scenes[SCENE_COUNT];
        draw_round(&next, &glass, scenes);
        if (bonus ? next.scenes > 0 : next.win > 0 && next.scenes == 0)
            return;
        spin(1);
    }
}

/* The spin up to a cut after so many stores, from the same memory each time; gives how many it could make. */
static size_t spin_with(size_t stores, const uint8_t *before)
{
    memcpy(image, before, length);
    badgerdross_mount(&store, image, length);
    power = stores;
    if (setjmp(gone) == 0)
        spin(1);
    size_t made = stores - power;
    power = SIZE_MAX;
    return made;
}

static void print_row(size_t first, size_t last, const char *place, const char *screen)
{
    char range[32];
    snprintf(range, sizeof range, first == last ? "%zu" : "%zu to %zu", first, last);
    printf("%-10s %-26s %s\n", range, place, screen);
}

int main(int count, char **arguments)
{
    static uint64_t memory[1 << 14], before[1 << 14];
    static char screen[200], shown[200];
    image = (uint8_t *)memory;
    length = badgerdross_image_length(PAGES, SLOTS, PLACES, ENTRIES);
    for (size_t i = 0; i < 24; i++)
        moduli[i] = i < 5 ? MODULUS : COUNT_MODULUS;
    if (length == 0 || length > sizeof memory || badgerdross_format(&store, image, length, PAGES, SLOTS, PLACES, ENTRIES, BADGERDROSS_END))
        return 1;
    seed = 27;
    play_up_to(count > 1 && strcmp(arguments[1], "bonus") == 0);
    memcpy(before, memory, sizeof memory);

    size_t torn = !screen_line(shown, sizeof shown), cuts = 1, first = 0;
    const char *place = "nothing yet";
    puts("The recall screen before the spin:\n");
    draw_recall();
    puts("\nThe spin; after each of its stores the power goes and the memory is mounted again.\n");
    printf("%-10s %-26s %s\n", "stores", "where they go", "the recall screen after each");
    for (size_t stores = 1; spin_with(stores, (uint8_t *)before) == stores; stores++, cuts++) {
        const char *to = where(last_word);
        badgerdross_mount(&store, image, length);
        torn += !screen_line(screen, sizeof screen);
        if (strcmp(to, place) != 0 || strcmp(screen, shown) != 0) {
            print_row(first, stores - 1, place, shown);
            first = stores, place = to;
            strcpy(shown, screen);
        }
    }
    print_row(first, cuts - 1, place, shown);
    puts("\nAnd after all of them:\n");
    draw_recall();
    printf("\n%zu cuts, %zu torn\n", cuts, torn);
    return torn > 0;
}
