/* Random curves as path data by the library and by plain C, in lists with every kind of room. */
#include "random_paths.h"

#include <stddef.h>
#include <string.h>

#include "plain.h"
#include "random_curve.h"
#include "tsaghnobir.h"

/* What has to come up: 0, 1 to 7, 10, 11 and 15. */
#define OUTCOMES (0xffu | 1u << TSB_FULL | 1u << TSB_NOT_WHOLE | 1u << TSB_ROOM)

static struct random_curve curve;

static struct written {
    uint32_t refusal;
    size_t length;
    uint8_t bytes[TSB_SVG_MOST];
} by_library, by_plain;

static uint32_t agreed(size_t room, int *same)
{
    memset(&by_library, 85, sizeof by_library);
    memset(&by_plain, 85, sizeof by_plain);
    by_library.refusal = tsb_svg(RANDOM(curve), by_library.bytes, room, &by_library.length);
    by_plain.refusal = plain_svg(RANDOM(curve), by_plain.bytes, room, &by_plain.length);
    if (memcmp(&by_library, &by_plain, sizeof by_library) != 0)
        *same = 0;
    return 1u << (by_library.refusal % 32);
}

int random_paths_agree(uint32_t (*dice)(void))
{
    uint32_t outcomes = 0;
    int same = 1;
    for (size_t k = 0; k < RANDOM_CURVES; k++) {
        random_curve(&curve, k, dice);
        outcomes |= agreed(TSB_SVG_MOST, &same);
        if (by_library.refusal != TSB_OK)
            continue;
        size_t length = by_library.length;
        outcomes |= agreed(length, &same) | agreed(length - 1, &same) | agreed(dice() % length, &same) | agreed(0, &same);
    }
    return same && outcomes == OUTCOMES;
}
