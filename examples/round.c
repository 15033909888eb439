#include <badgerdross.h>
#include <stdio.h>

int main(void)
{
    static uint64_t memory[4096]; /* in a cabinet this is the non-volatile memory */
    uint8_t *image = (uint8_t *)memory, reels[64] = "bell bell bell", line[64];
    size_t length = badgerdross_image_length(4, 2, 8, 0), made;
    struct badgerdross store;
    badgerdross_format(&store, image, length, 4, 2, 8, 0, BADGERDROSS_END);
    for (size_t stores = 4; stores <= 5; stores++) { /* the commit needs 5 */
        badgerdross_begin(&store, 0);
        badgerdross_write(&store, image, length, 0, 1, 0, 0, reels, 64, BADGERDROSS_END);
        badgerdross_commit(&store, image, length, 0, BADGERDROSS_ASKED);
        badgerdross_run(&store, image, length, stores, &made); /* then power is lost */
        badgerdross_mount(&store, image, length);
        badgerdross_recall(1, 0, image, length, line, 64);
        printf("%zu stores, and the recall screen shows \"%s\"\n", made, (char *)line);
    }
    return 0;
}
