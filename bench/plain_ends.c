/* Clamping both ends of a curve and unclamping its right end, written plainly: the new points are worked out and judged first, and put among the old ones after. */
#include <string.h>

#include "plain.h"
#include "tsaghnobir.h"

/* A number that may be no whole one: upper / lower. */
struct share {
    int64_t upper, lower;
};

/* An end of one axis: the knot where the domain ends, the outermost point, and the way inwards in both lists, 1 or -1. */
struct end {
    const uint16_t *knot;
    const int32_t *point;
    int inwards;
};

/* The outermost points of one axis when its ends are clamped or opened. */
struct fresh {
    int32_t start[2], finish[2];
};

/* How far the k-th knot inside the domain lies from its end, and the k-th one outside. */
static int64_t inside(const struct end *end, int k)
{
    return end->inwards * (end->knot[k * end->inwards] - end->knot[0]);
}

static int64_t outside(const struct end *end, int k)
{
    return -inside(end, -k);
}

/* (d a + e b) / (d + e) */
static struct share mean(int64_t d, struct share a, int64_t e, struct share b)
{
    struct share made = {d * b.lower * a.upper + e * a.lower * b.upper, (d + e) * a.lower * b.lower};
    return made;
}

static struct share first_row(const struct end *end, int m, int k)
{
    struct share a = {end->point[k * end->inwards], 1}, b = {end->point[(k + 1) * end->inwards], 1};
    return mean(inside(end, k + 1), a, outside(end, m - k - 1), b);
}

/* The first m - 1 points of a clamped end; 0 where one is not whole. */
static int clamp_end(const struct end *end, int m, int32_t *out)
{
    for (int k = 0; k + 1 < m; k++) {
        struct share made = first_row(end, m, k);
        if (k + 2 < m)
            made = mean(inside(end, 1), made, outside(end, 1), first_row(end, m, 1));
        if (made.upper % made.lower != 0)
            return 0;
        out[k] = (int32_t)(made.upper / made.lower);
    }
    return 1;
}

/* Both ends of one axis on which every point carries a span. */
static int clamp_axis(const uint16_t *knots, const int32_t *ps, size_t count, int m, struct fresh *fresh)
{
    struct end start = {knots + m, ps, 1}, finish = {knots + count, ps + count - 1, -1};
    return clamp_end(&start, m, fresh->start) && clamp_end(&finish, m, fresh->finish);
}

static void write_clamped(const int32_t *ps, size_t count, size_t m, const struct fresh *fresh, int32_t *restrict out)
{
    memcpy(out, ps, count * sizeof *ps);
    for (size_t k = 0; k + 1 < m; k++) {
        out[k] = fresh->start[k];
        out[count - 1 - k] = fresh->finish[k];
    }
}

uint32_t plain_clamp_checked(CURVE, LISTS, size_t *restrict points)
{
    size_t m = degree, first = plain_span(knots, m, xs_len, knots[m]) - m, past = plain_span(knots, m, xs_len, knots[xs_len]) + 1;
    size_t count = past - first, count_knots = count + m + 1;
    struct fresh fresh_x, fresh_y;
    (void)knots_len;
    (void)ys_len;
    knots += first;
    xs += first;
    ys += first;
    if (!clamp_axis(knots, xs, count, (int)m, &fresh_x) || !clamp_axis(knots, ys, count, (int)m, &fresh_y))
        return TSB_NOT_WHOLE;
    if (out_knots_len < count_knots || out_xs_len < count || out_ys_len < count)
        return TSB_ROOM;
    memcpy(out_knots, knots, count_knots * sizeof *knots);
    for (size_t k = 0; k < m; k++) {
        out_knots[k] = knots[m];
        out_knots[count + 1 + k] = knots[count];
    }
    write_clamped(xs, count, m, &fresh_x, out_xs);
    write_clamped(ys, count, m, &fresh_y, out_ys);
    *points = count;
    return TSB_OK;
}

uint32_t plain_clamp_ends(CURVE, LISTS, size_t *restrict points)
{
    uint32_t refusal = plain_check(degree, knots, knots_len, xs, xs_len, ys, ys_len);
    if (refusal != TSB_OK)
        return refusal;
    return plain_clamp_checked(
        degree, knots, knots_len, xs, xs_len, ys, ys_len, out_knots, out_knots_len, out_xs, out_xs_len, out_ys, out_ys_len, points);
}

static int fits(int64_t z)
{
    return -TSB_COORDINATE_MOST <= z && z <= TSB_COORDINATE_MOST;
}

/* The last m - 1 points of an opened end; 0 where one is not whole or beyond the range. */
static int open_end(const uint16_t *knots, const int32_t *ps, size_t count, size_t m, int32_t *out)
{
    int64_t last = ps[count - 1], second = ps[count - 2];
    if (m == 2)
        last = 2 * last - second;
    if (m == 3) {
        int64_t two = knots[count] - knots[count - 2], one = knots[count] - knots[count - 1], above = one * (second - ps[count - 3]);
        if (above % two != 0)
            return 0;
        int64_t opened = second + above / two;
        last = 6 * last - 3 * second - 2 * opened;
        second = opened;
    }
    out[0] = (int32_t)last;
    out[1] = (int32_t)second;
    return fits(last) && fits(second);
}

static void write_opened(const int32_t *ps, size_t count, const int32_t *finish, int32_t *restrict out)
{
    memcpy(out, ps, count * sizeof *ps);
    out[count - 1] = finish[0];
    out[count - 2] = finish[1];
}

uint32_t plain_unclamp_right(CURVE, LISTS, size_t *restrict points)
{
    uint32_t refusal = plain_check(degree, knots, knots_len, xs, xs_len, ys, ys_len);
    if (refusal != TSB_OK)
        return refusal;
    size_t m = degree, count = xs_len;
    uint32_t end = knots[count], step = end - knots[count - 1];
    int32_t finish_x[2], finish_y[2];
    if (knots[count + m] != end || end + (uint32_t)m * step > TSB_KNOT_MOST)
        return TSB_UNCLAMP;
    if (!open_end(knots, xs, count, m, finish_x) || !open_end(knots, ys, count, m, finish_y))
        return TSB_UNCLAMP;
    if (out_knots_len < knots_len || out_xs_len < count || out_ys_len < count)
        return TSB_ROOM;
    memcpy(out_knots, knots, knots_len * sizeof *knots);
    for (size_t k = 1; k <= m; k++)
        out_knots[count + k] = (uint16_t)(end + (uint32_t)k * step);
    write_opened(xs, count, finish_x, out_xs);
    write_opened(ys, count, finish_y, out_ys);
    *points = count;
    return TSB_OK;
}
