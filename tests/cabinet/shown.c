/* All that the recall screen can show of an image: every line of every page, by badgerdross_recall, into the target. */
#include <badgerdross.h>

size_t shown(const uint8_t *image, size_t length, size_t pages, uint8_t *target)
{
    struct badgerdross store;
    size_t answer = badgerdross_mount(&store, image, length);
    for (size_t page = 0; page < pages && answer == BADGERDROSS_TAKEN; page++)
        for (size_t line = 0; line < 64 && answer == BADGERDROSS_TAKEN; line++)
            answer = badgerdross_recall(page, line, image, length, target + 64 * (64 * page + line), 64);
    return answer;
}
