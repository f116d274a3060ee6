/* Inserting a knot and compaction, written plainly. */
#include <string.h>

#include "plain.h"
#include "tsaghnobir.h"

/* The span of v in the old knots: knots[i] <= v < knots[i + 1]. */
static size_t span_before(const uint16_t *knots, size_t m, uint32_t v)
{
    size_t i = m;
    while (knots[i + 1] <= v)
        i++;
    return i;
}

/* The new coordinate j, times the difference of its knots. */
static int64_t weighted(const uint16_t *knots, const int32_t *ps, size_t m, int64_t v, size_t j)
{
    return (v - knots[j]) * ps[j] + (knots[j + m] - v) * ps[j - 1];
}

static int whole(const uint16_t *knots, const int32_t *ps, size_t m, int64_t v, size_t i)
{
    for (size_t j = i - m + 1; j <= i; j++)
        if (weighted(knots, ps, m, v, j) % (knots[j + m] - knots[j]) != 0)
            return 0;
    return 1;
}

static void insert_points(const uint16_t *knots, const int32_t *ps, size_t count, size_t m, int64_t v, size_t i, int32_t *restrict out)
{
    for (size_t j = 0; j <= i - m; j++)
        out[j] = ps[j];
    for (size_t j = i - m + 1; j <= i; j++)
        out[j] = (int32_t)(weighted(knots, ps, m, v, j) / (knots[j + m] - knots[j]));
    for (size_t j = i; j < count; j++)
        out[j + 1] = ps[j];
}

uint32_t plain_insert(CURVE, uint32_t v, LISTS, size_t *restrict points)
{
    uint32_t refusal = plain_check(degree, knots, knots_len, xs, xs_len, ys, ys_len);
    if (refusal != TSB_OK)
        return refusal;
    size_t m = degree;
    if (v <= knots[m] || v >= knots[xs_len])
        return TSB_INSERTION;
    size_t times = 0;
    for (size_t k = 0; k < knots_len; k++)
        times += knots[k] == v;
    if (times >= m)
        return TSB_INSERTION;
    if (xs_len >= TSB_POINTS_MOST)
        return TSB_FULL;
    size_t i = span_before(knots, m, v);
    if (!whole(knots, xs, m, v, i) || !whole(knots, ys, m, v, i))
        return TSB_NOT_WHOLE;
    if (out_knots_len < knots_len + 1 || out_xs_len < xs_len + 1 || out_ys_len < ys_len + 1)
        return TSB_ROOM;
    for (size_t k = 0; k <= i; k++)
        out_knots[k] = knots[k];
    out_knots[i + 1] = (uint16_t)v;
    for (size_t k = i + 1; k < knots_len; k++)
        out_knots[k + 1] = knots[k];
    insert_points(knots, xs, xs_len, m, v, i, out_xs);
    insert_points(knots, ys, ys_len, m, v, i, out_ys);
    *points = xs_len + 1;
    return TSB_OK;
}

/* A curve at work, in place. */
struct work {
    size_t m, points;
    uint16_t knots[TSB_KNOTS_MOST];
    int32_t xs[TSB_POINTS_MOST], ys[TSB_POINTS_MOST];
};

/* The knot k without the one at `last`. */
static int64_t knot_without(const struct work *w, size_t last, size_t k)
{
    return w->knots[k < last ? k : k + 1];
}

/*
 * The new points of one axis that stand between those of the left and those of the right, where the value that stands `times` times, the last time at
 * `last`, goes once: from the left on, and the far side must agree. 0 where there are none that are whole and within range.
 */
static int solve(const struct work *w, const int32_t *ps, size_t last, size_t times, int32_t *fresh)
{
    size_t i = last - 1, far = i - (times - 1), m = w->m;
    int64_t v = w->knots[last], before = ps[i - m];
    for (size_t j = i - m + 1; j <= far; j++) {
        int64_t low = knot_without(w, last, j), high = knot_without(w, last, j + m);
        int64_t rest = (high - low) * ps[j] - (high - v) * before;
        if (j == far)
            return rest == (v - low) * ps[far + 1];
        if (rest % (v - low) != 0)
            return 0;
        before = rest / (v - low);
        if (before < -TSB_COORDINATE_MOST || before > TSB_COORDINATE_MOST)
            return 0;
        *fresh++ = (int32_t)before;
    }
    return 1;
}

static void take_out(struct work *w, int32_t *ps, size_t last, size_t times, const int32_t *fresh)
{
    size_t i = last - 1, far = i - (times - 1);
    for (size_t j = i - w->m + 1; j < far; j++)
        ps[j] = *fresh++;
    memmove(ps + far, ps + far + 1, (w->points - far - 1) * sizeof *ps);
}

/* Removes the value that stands `times` times, the last time at `last`, once; 0 where that is refused. */
static int remove_once(struct work *w, size_t last, size_t times)
{
    int32_t fresh_x[3], fresh_y[3];
    if (!solve(w, w->xs, last, times, fresh_x) || !solve(w, w->ys, last, times, fresh_y))
        return 0;
    take_out(w, w->xs, last, times, fresh_x);
    take_out(w, w->ys, last, times, fresh_y);
    memmove(w->knots + last, w->knots + last + 1, (w->points + w->m - last) * sizeof *w->knots);
    w->points--;
    return 1;
}

uint32_t plain_compact(CURVE, LISTS, size_t *restrict points, size_t *restrict removed)
{
    uint32_t refusal = plain_check(degree, knots, knots_len, xs, xs_len, ys, ys_len);
    if (refusal != TSB_OK)
        return refusal;
    struct work w;
    w.m = degree;
    w.points = xs_len;
    memcpy(w.knots, knots, knots_len * sizeof *knots);
    memcpy(w.xs, xs, xs_len * sizeof *xs);
    memcpy(w.ys, ys, ys_len * sizeof *ys);
    size_t at = w.m + 1;
    while (w.knots[at] == w.knots[w.m])
        at++;
    while (w.knots[at] < w.knots[w.points]) {
        size_t times = 1;
        while (w.knots[at + times] == w.knots[at])
            times++;
        while (times > 0 && remove_once(&w, at + times - 1, times))
            times--;
        at += times;
    }
    size_t left = w.points + w.m + 1;
    if (out_knots_len < left || out_xs_len < w.points || out_ys_len < w.points)
        return TSB_ROOM;
    memcpy(out_knots, w.knots, left * sizeof *knots);
    memcpy(out_xs, w.xs, w.points * sizeof *xs);
    memcpy(out_ys, w.ys, w.points * sizeof *ys);
    *points = w.points;
    *removed = xs_len - w.points;
    return TSB_OK;
}
