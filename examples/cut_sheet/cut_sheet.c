/*
 * The cut sheet of a powerhit script: for each store where it goes, whether it decides, and what the recall screen
 * shows if power is lost right after it. docs/SHEET.md says how to read it.
 *
 *     cut_sheet NAME [SCRIPT]      reads the script, else standard input; writes NAME.csv and NAME.html
 *
 * Exit status: 0 both are written; 1 the script has bad lines, which are named, and nothing is written; 2 wrong
 * arguments, or a file that cannot be read or written.
 */
#define _POSIX_C_SOURCE 200809L
#include <stdbool.h>
#include <stdio.h>
#include <stdlib.h>
#include <string.h>

#include "badgerdross.h"

/* the lines of page.html (Makefile) */
static const char *const page[] = {
#include "page.h"
};

enum { ROOM = 65536, MOST = 69, DIGITS = 9, PAGES = 16, LINES = 64, BYTES = 64, WORD = 8 };

static struct badgerdross store;
static uint64_t words[ROOM / WORD];
static uint8_t *const image = (uint8_t *)words;

/* an F was taken and its image still mounts; a K waits for the next operation that needs stores */
static bool formatted, cutting;
static size_t cut;

/* ---- a line of the script: a letter and numbers */

static char letter;
static size_t count, number[MOST];

static bool parse(const char *text, size_t length)
{
    count = 0;
    letter = length > 0 ? text[0] : ',';
    for (size_t at = 1; at < length;) {
        size_t digits = 0, value = 0;
        if (text[at++] != ',' || count == MOST)
            return false;
        for (; at < length && text[at] >= '0' && text[at] <= '9'; at++, digits++)
            value = digits < DIGITS ? 10 * value + (size_t)(text[at] - '0') : value;
        if (digits == 0 || digits > DIGITS)
            return false;
        number[count++] = value;
    }
    return letter != ',';
}

/* Whether the letter has that many numbers, and a write's bytes are bytes. */
static bool has_form(void)
{
    static const char letters[] = "FBCARDPXK";
    static const size_t counts[] = {3, 1, 1, 1, 4, 1, 0, 0, 1};
    for (size_t i = 5; letter == 'W' && i < count; i++)
        if (number[i] > 255)
            return false;
    const char *found = letter == 0 ? NULL : strchr(letters, letter);
    return letter == 'W' ? count >= 5 : found != NULL && counts[found - letters] == count;
}

/* ---- where a store goes, in words: document 01's layout */

struct sizes {
    size_t pages, slots, places;
};

/* Those of the image under a state; those of a format are in its line. */
static struct sizes sizes_at_hand(void)
{
    if (letter == 'F')
        return (struct sizes){number[0], number[1], number[2]};
    return (struct sizes){words[0], words[1], words[2]};
}

/* In which frame, line and word of it; which page's copy it is, only the call knows: a format's is none's. */
static void name_frame_word(FILE *out, size_t at)
{
    size_t frame = at / (LINES * BYTES / WORD), line = at / (BYTES / WORD) % LINES, word = at % (BYTES / WORD);
    if (letter == 'F')
        fprintf(out, "word %zu of line %zu of frame %zu", word, line, frame);
    else
        fprintf(out, "word %zu of the copy of line %zu of page %zu in frame %zu", word, line,
                letter == 'W' ? number[1] : number[0], frame);
}

static void name_word(FILE *out, size_t at)
{
    static const char *const header[] = {"number of pages", "number of slots", "number of journal places", "layout word",
                                         "head", "tail", "count of entries", "number of entries"};
    struct sizes z = sizes_at_hand();
    size_t table = 8, slots = table + z.pages, journal = slots + 3 * z.slots, padding = journal + 4 * z.places;
    size_t frames = (padding + 7) / 8 * 8;
    if (at < table)
        fputs(header[at], out);
    else if (at < slots)
        fprintf(out, "page table word of page %zu", at - table);
    else if (at < journal)
        fprintf(out, "word %zu of slot %zu of the slot table", (at - slots) % 3, (at - slots) / 3);
    else if (at < padding)
        fprintf(out, "word %zu of record %zu of the journal", (at - journal) % 4, (at - journal) / 4);
    else if (at < frames)
        fprintf(out, "word %zu of the padding", at - padding);
    else
        name_frame_word(out, at - frames);
}

/* ---- the recall screen: what recall gives of every line, from the image alone */

static uint8_t shown[PAGES][LINES][BYTES], before[PAGES][LINES][BYTES];
static size_t recalled = BADGERDROSS_UNKNOWN_LAYOUT; /* what recall answered last */
static size_t screen;                                /* how many different screens there were so far, one after the other */

/* Fills shown from an image that recall takes. */
static void look(void)
{
    memset(shown, 0, sizeof shown);
    for (size_t p = 0; p < PAGES; p++)
        for (size_t l = 0; l < LINES; l++)
            /* line and target are right: it is 11 where there are no more pages */
            if (badgerdross_recall(p, l, image, ROOM, shown[p][l], BYTES) != BADGERDROSS_TAKEN)
                return;
}

/* The bytes of a line in decimal, without the zeros at its end. */
static void put_line(FILE *out, const uint8_t *line)
{
    size_t end = BYTES;
    while (end > 1 && line[end - 1] == 0)
        end--;
    for (size_t i = 0; i < end; i++)
        fprintf(out, " %d", line[i]);
}

/* What recall answers, the screen's number, and what of it differs from the screen of the row above. */
static void put_screen(FILE *out)
{
    size_t above = recalled, differ = 0;
    uint8_t first[BYTES];
    recalled = badgerdross_recall(0, 0, image, ROOM, first, BYTES);
    /* of every line then, since the image is turned back */
    if (recalled != BADGERDROSS_TAKEN) {
        fprintf(out, "%zu,-,no image\n", recalled);
        return;
    }
    if (above == BADGERDROSS_TAKEN)
        memcpy(before, shown, sizeof before);
    else
        memset(before, 0, sizeof before);
    look();
    bool other = above != BADGERDROSS_TAKEN || memcmp(before, shown, sizeof shown) != 0;
    screen += other;
    fprintf(out, "0,%zu,", screen);
    for (size_t p = 0; p < PAGES; p++)
        for (size_t l = 0; l < LINES; l++)
            if (memcmp(before[p][l], shown[p][l], BYTES) != 0) {
                fprintf(out, "%spage %zu line %zu:", differ++ == 0 ? "" : "; ", p, l);
                put_line(out, shown[p][l]);
            }
    fputs(differ > 0 ? "\n" : other ? "blank\n" : "as before\n", out);
}

/* ---- the calls */

static size_t ask_write(void)
{
    uint8_t data[BYTES];
    for (size_t i = 5; i < count; i++)
        data[i - 5] = (uint8_t)number[i];
    /* the call takes all of its data: a length beyond them is no call of it */
    if (number[4] > count - 5)
        return BADGERDROSS_BAD_ARGUMENT;
    return badgerdross_write(&store, image, ROOM, number[0], number[1], number[2], number[3], data, number[4], BADGERDROSS_ASKED);
}

static size_t ask_read(void)
{
    uint8_t target[BYTES];
    size_t answer = badgerdross_read(&store, image, ROOM, number[0], number[1], number[2], target, BYTES);
    return answer == BADGERDROSS_TAKEN && number[3] >= BYTES ? (size_t)BADGERDROSS_BAD_ARGUMENT : answer;
}

static size_t ask(void)
{
    switch (letter) {
    case 'F': return badgerdross_format(&store, image, ROOM, number[0], number[1], number[2], 0, BADGERDROSS_ASKED);
    case 'B': return badgerdross_begin(&store, number[0]);
    case 'A': return badgerdross_abort(&store, number[0]);
    case 'W': return ask_write();
    case 'R': return ask_read();
    case 'C': return badgerdross_commit(&store, image, ROOM, number[0], BADGERDROSS_ASKED);
    case 'D': return badgerdross_consolidate(&store, image, ROOM, number[0], BADGERDROSS_ASKED);
    case 'P': return badgerdross_checkpoint(&store, image, ROOM, BADGERDROSS_ASKED);
    case 'X': return badgerdross_mount(&store, image, ROOM);
    default: cutting = true, cut = number[0]; return BADGERDROSS_TAKEN;
    }
}

/* What the mount after a cut will answer, tried on a copy of the image. */
static size_t answer_when_cut(size_t stores)
{
    static uint64_t copy[ROOM / WORD];
    struct badgerdross tried = store;
    size_t made;
    memcpy(copy, words, sizeof copy);
    badgerdross_run(&tried, (uint8_t *)copy, ROOM, stores, &made);
    return badgerdross_mount(&tried, (uint8_t *)copy, ROOM);
}

/* ---- the rows of a line: one for each store, or one that has none */

static void put_store(FILE *out, size_t line, size_t answer, size_t made, size_t needed)
{
    struct badgerdross_next next;
    badgerdross_next_store(&store, image, ROOM, &next);
    badgerdross_step(&store, image, ROOM);
    fprintf(out, "%zu,%c,%zu,%zu,%zu,%zu,", line, letter, answer, made, needed, WORD * next.word);
    name_word(out, next.word);
    fprintf(out, ",%llu,%s,", (unsigned long long)words[next.word], next.decides ? "yes" : "no");
    put_screen(out);
}

static void play(FILE *out, size_t line)
{
    struct badgerdross_next next;
    size_t answer = ask(), needed = 0;
    if (answer == BADGERDROSS_TAKEN && letter != 'X' && badgerdross_next_store(&store, image, ROOM, &next) == BADGERDROSS_TAKEN)
        needed = next.left;
    bool cuts = cutting && needed > 0;
    size_t stores = cuts && cut < needed ? cut : needed;
    if (cuts)
        answer = answer_when_cut(stores);
    for (size_t made = 1; made <= stores; made++)
        put_store(out, line, answer, made, needed);
    if (cuts)
        badgerdross_mount(&store, image, ROOM);
    if (needed > 0) {
        cutting = false;
        formatted = answer == BADGERDROSS_TAKEN;
    }
    if (stores == 0) {
        fprintf(out, "%zu,%c,%zu,0,%zu,-,-,-,-,", line, letter, answer, needed);
        put_screen(out);
    }
}

/* Every line in turn. How many of them are bad; these are named. */
static size_t play_script(FILE *out, const char *text, size_t length)
{
    size_t bad = 0, line = 0;
    fputs("line,call,answer,store,of,address,place,value,decides,recall,screen,shows\n", out);
    for (const char *at = text, *end; at < text + length; at = end + 1) {
        end = memchr(at, '\n', (size_t)(text + length - at));
        end = end == NULL ? text + length : end;
        line++;
        const char *wrong = !parse(at, (size_t)(end - at)) || !has_form() ? "not a line of a powerhit script"
                            : letter != 'F' && !formatted                ? "no image: an F must be taken first"
                                                                         : NULL;
        if (wrong == NULL)
            play(out, line);
        else
            fprintf(stderr, "line %zu: %s\n", line, wrong);
        bad += wrong != NULL;
    }
    return bad;
}

/* ---- the files */

struct text {
    char *bytes;
    size_t length;
};

static void fail(const char *what, const char *name)
{
    fprintf(stderr, "cut_sheet: %s %s\n", what, name);
    exit(2);
}

/* What a function writes to a stream, in memory. */
static FILE *open_text(struct text *text)
{
    FILE *out = open_memstream(&text->bytes, &text->length);
    if (out == NULL)
        fail("no memory", "for the sheet");
    return out;
}

static void close_text(FILE *out)
{
    if (ferror(out) || fclose(out) != 0)
        fail("no memory", "for the sheet");
}

static struct text read_script(const char *name)
{
    struct text script;
    FILE *in = name == NULL ? stdin : fopen(name, "rb"), *out = open_text(&script);
    if (in == NULL)
        fail("cannot read", name);
    for (int byte; (byte = getc(in)) != EOF;)
        putc(byte, out);
    if (ferror(in))
        fail("cannot read", name == NULL ? "standard input" : name);
    if (in != stdin)
        fclose(in);
    close_text(out);
    return script;
}

/* The page, with the sheet and the script where it has a line for each. */
static void put_page(FILE *out, struct text sheet, struct text script)
{
    for (size_t i = 0; i < sizeof page / sizeof *page; i++) {
        const struct text *part = strcmp(page[i], "@SHEET@\n") == 0 ? &sheet : strcmp(page[i], "@SCRIPT@\n") == 0 ? &script : NULL;
        if (part == NULL)
            fputs(page[i], out);
        else
            fwrite(part->bytes, 1, part->length, out);
        /* a script's last line may have no newline */
        if (part != NULL && part->length > 0 && part->bytes[part->length - 1] != '\n')
            putc('\n', out);
    }
}

static void write_file(const char *name, const char *ending, struct text text)
{
    char path[4096];
    int length = snprintf(path, sizeof path, "%s.%s", name, ending);
    FILE *out = length < (int)sizeof path ? fopen(path, "wb") : NULL;
    if (out == NULL)
        fail("cannot write", path);
    size_t written = fwrite(text.bytes, 1, text.length, out);
    if (fclose(out) != 0 || written != text.length)
        fail("cannot write", path);
}

int main(int arguments, char **argument)
{
    if (arguments < 2 || arguments > 3) {
        fputs("usage: cut_sheet NAME [SCRIPT]\n", stderr);
        return 2;
    }
    struct text script = read_script(argument[2]), sheet, html;
    FILE *out = open_text(&sheet);
    size_t bad = play_script(out, script.bytes, script.length);
    close_text(out);
    out = open_text(&html);
    put_page(out, sheet, script);
    close_text(out);
    if (bad == 0) {
        write_file(argument[1], "csv", sheet);
        write_file(argument[1], "html", html);
    }
    free(script.bytes);
    free(sheet.bytes);
    free(html.bytes);
    return bad > 0;
}
