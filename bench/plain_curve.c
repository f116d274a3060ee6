/*
 * Checking a curve, its point and carrying points, and the spans where a cutter may meet a clamp, written plainly. The loops of the check run to
 * their end, as those of the library do, so that a compiler can make the same vector code of both.
 */
#include "plain.h"
#include "tsaghnobir.h"

static int on_grid(int32_t z)
{
    return -TSB_COORDINATE_MOST <= z && z <= TSB_COORDINATE_MOST;
}

static int all_on_grid(const int32_t *zs, size_t count)
{
    int fine = 1;
    for (size_t i = 0; i < count; i++)
        if (!on_grid(zs[i]))
            fine = 0;
    return fine;
}

static int falls(const uint16_t *knots, size_t count)
{
    int found = 0;
    for (size_t i = 1; i < count; i++)
        if (knots[i] < knots[i - 1])
            found = 1;
    return found;
}

/* Whether a knot from `first` on and before `past` equals the one `back` places before it: where no knot falls, its value stands more than `back` times. */
static int again(const uint16_t *knots, size_t first, size_t past, size_t back)
{
    int found = 0;
    for (size_t i = first; i < past; i++)
        if (knots[i] == knots[i - back])
            found = 1;
    return found;
}

/* Strictly inside the domain a value may stand m times, elsewhere m + 1 times; an end of the domain that reaches further in than that stands m + 2 times. */
static int repeats(const uint16_t *knots, size_t m, size_t points)
{
    return again(knots, m + 1, 2 * m + 1, m + 1) || again(knots, points + 1, points + m + 1, m + 1) || again(knots, 2 * m + 1, points, m);
}

uint32_t plain_check(CURVE)
{
    if (degree < 1 || degree > 3)
        return TSB_DEGREE;
    size_t m = degree;
    if (xs_len != ys_len || xs_len < m + 1 || xs_len > TSB_POINTS_MOST)
        return TSB_POINT_COUNT;
    if (knots_len != xs_len + m + 1)
        return TSB_KNOT_COUNT;
    if (falls(knots, knots_len) || knots[knots_len - 1] > TSB_KNOT_MOST)
        return TSB_KNOT_ORDER;
    if (knots[m] >= knots[xs_len])
        return TSB_ENDS;
    if (repeats(knots, m, xs_len))
        return TSB_REPEATS;
    if (!all_on_grid(xs, xs_len) || !all_on_grid(ys, ys_len))
        return TSB_RANGE;
    return TSB_OK;
}

/* The check, then whether the domain holds t. */
static uint32_t check_parameter(CURVE, uint32_t t)
{
    uint32_t refusal = plain_check(degree, knots, knots_len, xs, xs_len, ys, ys_len);
    if (refusal != TSB_OK)
        return refusal;
    if (t < knots[degree] || t > knots[xs_len])
        return TSB_PARAMETER;
    return TSB_OK;
}

size_t plain_span(const uint16_t *knots, size_t m, size_t points, uint32_t t)
{
    size_t i = points - 1;
    while (i > m && !(knots[i] <= t && knots[i] < knots[i + 1]))
        i--;
    return i;
}

static double coordinate(const uint16_t *knots, const int32_t *ps, size_t m, size_t i, int32_t t)
{
    double d[4] = {0};
    for (size_t a = 0; a <= m; a++)
        d[a] = ps[i - m + a];
    for (size_t r = 1; r <= m; r++)
        for (size_t a = m; a >= r; a--) {
            size_t j = i - m + a;
            int32_t low = knots[j], high = knots[j + m - r + 1];
            d[a] = ((double)(high - t) * d[a - 1] + (double)(t - low) * d[a]) / (double)(high - low);
        }
    return d[m];
}

uint32_t plain_point(CURVE, uint32_t t, double *restrict x, double *restrict y)
{
    uint32_t refusal = check_parameter(degree, knots, knots_len, xs, xs_len, ys, ys_len, t);
    if (refusal != TSB_OK)
        return refusal;
    size_t i = plain_span(knots, degree, xs_len, t);
    *x = coordinate(knots, xs, degree, i, (int32_t)t);
    *y = coordinate(knots, ys, degree, i, (int32_t)t);
    return TSB_OK;
}

uint32_t plain_carrying(CURVE, uint32_t t, size_t *restrict first)
{
    uint32_t refusal = check_parameter(degree, knots, knots_len, xs, xs_len, ys, ys_len, t);
    if (refusal != TSB_OK)
        return refusal;
    *first = plain_span(knots, degree, xs_len, t) - degree;
    return TSB_OK;
}

/* Whether the box of some coordinates meets low..high. */
static int meets(const int32_t *zs, size_t count, int32_t low, int32_t high)
{
    int32_t least = zs[0], greatest = zs[0];
    for (size_t k = 1; k < count; k++) {
        if (zs[k] < least)
            least = zs[k];
        if (zs[k] > greatest)
            greatest = zs[k];
    }
    return least <= high && low <= greatest;
}

uint32_t plain_spans(
    CURVE, int32_t low_x, int32_t high_x, int32_t low_y, int32_t high_y, uint32_t radius,
    uint16_t *restrict lows, size_t lows_len, uint16_t *restrict highs, size_t highs_len, size_t *restrict count)
{
    uint32_t refusal = plain_check(degree, knots, knots_len, xs, xs_len, ys, ys_len);
    if (refusal != TSB_OK)
        return refusal;
    if (radius > TSB_RADIUS_MOST)
        return TSB_RADIUS;
    if (low_x > high_x || low_y > high_y || !on_grid(low_x) || !on_grid(high_x) || !on_grid(low_y) || !on_grid(high_y))
        return TSB_RECTANGLE;
    size_t m = degree, places = 0;
    for (size_t i = m; i < xs_len; i++)
        if (knots[i] < knots[i + 1])
            places++;
    if (lows_len < places || highs_len < places)
        return TSB_ROOM;
    int32_t r = (int32_t)radius;
    size_t at = 0;
    for (size_t i = m; i < xs_len; i++)
        if (knots[i] < knots[i + 1] && meets(xs + i - m, m + 1, low_x - r, high_x + r) && meets(ys + i - m, m + 1, low_y - r, high_y + r)) {
            lows[at] = knots[i];
            highs[at] = knots[i + 1];
            at++;
        }
    *count = at;
    return TSB_OK;
}
