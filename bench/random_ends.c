/* Random curves clamped at both ends and unclamped at the right by the library and by plain C, in lists that are just long enough and one place too short. */
#include "random_ends.h"

#include <stddef.h>
#include <string.h>

#include "plain.h"
#include "random_curve.h"
#include "tsaghnobir.h"

/* What has to come up: 0, 1 to 7 and 15 by both calls, and 11 or 23 by one. */
#define OUTCOMES (0xffu | 1u << TSB_ROOM)

static struct random_curve curve;

static struct made {
    uint32_t refusal;
    size_t points;
    uint16_t knots[TSB_KNOTS_MOST];
    int32_t xs[TSB_POINTS_MOST], ys[TSB_POINTS_MOST];
} by_library, by_plain;

typedef uint32_t ends_call(CURVE, LISTS, size_t *restrict points);

static void make(ends_call *call, struct made *made, size_t knots, size_t xs, size_t ys)
{
    memset(made, 85, sizeof *made);
    made->refusal = call(RANDOM(curve), made->knots, knots, made->xs, xs, made->ys, ys, &made->points);
}

static uint32_t agreed(ends_call *library, ends_call *plain, size_t knots, size_t xs, size_t ys, int *same)
{
    make(library, &by_library, knots, xs, ys);
    make(plain, &by_plain, knots, xs, ys);
    if (memcmp(&by_library, &by_plain, sizeof by_library) != 0)
        *same = 0;
    return 1u << (by_library.refusal % 32);
}

static uint32_t agreed_with_less_room(ends_call *library, ends_call *plain, int *same)
{
    uint32_t outcomes = agreed(library, plain, TSB_KNOTS_MOST, TSB_POINTS_MOST, TSB_POINTS_MOST, same);
    if (by_library.refusal != TSB_OK)
        return outcomes;
    size_t points = by_library.points, knots = points + curve.degree + 1;
    outcomes |= agreed(library, plain, knots, points, points, same) | agreed(library, plain, knots - 1, points, points, same);
    return outcomes | agreed(library, plain, knots, points - 1, points, same) | agreed(library, plain, knots, points, points - 1, same);
}

int random_ends_agree(uint32_t (*dice)(void))
{
    uint32_t by_clamping = 0, by_unclamping = 0;
    int same = 1;
    for (size_t k = 0; k < RANDOM_CURVES; k++) {
        random_curve(&curve, k, dice);
        by_clamping |= agreed_with_less_room(tsb_clamp_ends, plain_clamp_ends, &same);
        by_unclamping |= agreed_with_less_room(tsb_unclamp_right, plain_unclamp_right, &same);
    }
    return same && by_clamping == (OUTCOMES | 1u << TSB_NOT_WHOLE) && by_unclamping == (OUTCOMES | 1u << TSB_UNCLAMP);
}
