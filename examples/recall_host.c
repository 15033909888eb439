/*
 * A recall screen: loads an image file and prints, for each page, the first few lines that are not all zero.
 *
 *     cc -Iinclude examples/recall_host.c target/staticlib/librecalling.a -o recall_host
 *     ./recall_host IMAGE
 *
 * Exit status: 0 the screen was printed; 1 recall turned the image back, and its number was printed; 2 no image.
 */
#include <stdbool.h>
#include <stdio.h>
#include <stdlib.h>

#include "badgerdross.h"

enum { LINE_BYTES = 64, LINES = 64, SHOWN = 4, BAD_ARGUMENT = 11 };

/* The bytes of a file, to be freed by the caller, or NULL. */
static uint8_t *load(const char *path, size_t *length)
{
    FILE *file = fopen(path, "rb");
    uint8_t *bytes = NULL;
    size_t room = 0, used = 0;
    bool whole = false;
    while (file != NULL && !whole) {
        uint8_t *more = realloc(bytes, room += 65536);
        if (more == NULL)
            break;
        bytes = more;
        used += fread(bytes + used, 1, room - used, file);
        whole = feof(file);
        if (ferror(file))
            break;
    }
    if (file != NULL)
        fclose(file);
    if (!whole) {
        free(bytes);
        return NULL;
    }
    *length = used;
    return bytes;
}

static bool is_zero(const uint8_t *line)
{
    for (size_t i = 0; i < LINE_BYTES; i++)
        if (line[i] != 0)
            return false;
    return true;
}

/* Printable characters as they are, dots for others. */
static void print_line(size_t page, size_t number, const uint8_t *line)
{
    printf("page %zu line %zu ", page, number);
    for (size_t i = 0; i < LINE_BYTES; i++)
        putchar(line[i] >= 32 && line[i] < 127 ? line[i] : '.');
    putchar('\n');
}

/* 0 where the screen was printed, else the number of the refusal. */
static size_t print_screen(const uint8_t *image, size_t length)
{
    uint8_t line[LINE_BYTES];
    for (size_t page = 0;; page++) {
        size_t shown = 0;
        for (size_t number = 0; number < LINES && shown < SHOWN; number++) {
            size_t refused = recall(page, number, image, length, line, sizeof line);
            /* the line and the target are right, so there are no more pages */
            if (refused == BAD_ARGUMENT)
                return 0;
            if (refused != 0)
                return refused;
            if (!is_zero(line)) {
                print_line(page, number, line);
                shown++;
            }
        }
    }
}

int main(int count, char **arguments)
{
    size_t length;
    uint8_t *image = count == 2 ? load(arguments[1], &length) : NULL;
    if (image == NULL) {
        fprintf(stderr, "usage: recall_host IMAGE\n");
        return 2;
    }
    size_t refused = print_screen(image, length);
    if (refused != 0)
        printf("refused %zu\n", refused);
    free(image);
    return refused != 0;
}
