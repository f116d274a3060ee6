/*
 * Joining spline points, written plainly: one body for both calls, which is told how many times an inner parameter stands, two or three. Knots and points
 * are written by threes in either case, without asking; where it is two, what follows is written over the third.
 */
#include "plain.h"
#include "tsaghnobir.h"

static int on_grid(int64_t z)
{
    return -TSB_COORDINATE_MOST <= z && z <= TSB_COORDINATE_MOST;
}

static int all_on_grid(const int32_t *zs, size_t count)
{
    for (size_t i = 0; i < count; i++)
        if (!on_grid(zs[i]))
            return 0;
    return 1;
}

static int all_whole(const uint16_t *params, const int32_t *ds, size_t count)
{
    for (size_t i = 0; i + 1 < count; i++) {
        int64_t h = params[i + 1] - params[i];
        if (h * ds[i] % 3 != 0 || h * ds[i + 1] % 3 != 0)
            return 0;
    }
    return 1;
}

static int pieces_on_grid(const uint16_t *params, const int32_t *ps, const int32_t *ds, size_t count)
{
    for (size_t i = 0; i + 1 < count; i++) {
        int64_t h = params[i + 1] - params[i];
        if (!on_grid(ps[i] + h * ds[i] / 3) || !on_grid(ps[i + 1] - h * ds[i + 1] / 3))
            return 0;
    }
    return 1;
}

static uint16_t *put_end(uint16_t *out, uint16_t knot)
{
    out[0] = out[1] = out[2] = out[3] = knot;
    return out + 4;
}

static void join_knots(const uint16_t *params, size_t count, size_t times, uint16_t *restrict out)
{
    out = put_end(out, params[0]);
    for (size_t i = 1; i + 1 < count; i++) {
        out[0] = out[1] = out[2] = params[i];
        out += times;
    }
    put_end(out, params[count - 1]);
}

/* The third point of a piece is its end: the meeting point, or the curve's last. */
static void join_axis(const uint16_t *params, const int32_t *ps, const int32_t *ds, size_t count, size_t times, int32_t *restrict out)
{
    *out = ps[0];
    for (size_t i = 0; i + 1 < count; i++) {
        int64_t h = params[i + 1] - params[i];
        out[1] = (int32_t)(ps[i] + h * ds[i] / 3);
        out[2] = (int32_t)(ps[i + 1] - h * ds[i + 1] / 3);
        out[3] = ps[i + 1];
        out += times;
    }
}

static uint32_t join(size_t times, SPLINE_POINTS, LISTS, size_t *restrict points)
{
    size_t count = params_len;
    if (count < 2 || count > TSB_SPLINE_POINTS_MOST || px_len != count || py_len != count || tx_len != count || ty_len != count)
        return TSB_SPLINE_POINTS;
    for (size_t i = 0; i < count; i++)
        if (params[i] > TSB_KNOT_MOST || (i > 0 && params[i] <= params[i - 1]))
            return TSB_SPLINE_POINTS;
    if (!all_on_grid(px, count) || !all_on_grid(py, count) || !all_on_grid(tx, count) || !all_on_grid(ty, count))
        return TSB_RANGE;
    if (!all_whole(params, tx, count) || !all_whole(params, ty, count))
        return TSB_NOT_WHOLE;
    if (!pieces_on_grid(params, px, tx, count) || !pieces_on_grid(params, py, ty, count))
        return TSB_JOINED_RANGE;
    size_t joined = times * (count - 2) + 4;
    if (out_knots_len < joined + 4 || out_xs_len < joined || out_ys_len < joined)
        return TSB_ROOM;
    join_knots(params, count, times, out_knots);
    join_axis(params, px, tx, count, times, out_xs);
    join_axis(params, py, ty, count, times, out_ys);
    *points = joined;
    return TSB_OK;
}

#define GIVEN params, params_len, px, px_len, py, py_len, tx, tx_len, ty, ty_len
#define PLACES out_knots, out_knots_len, out_xs, out_xs_len, out_ys, out_ys_len

uint32_t plain_join(SPLINE_POINTS, LISTS, size_t *restrict points)
{
    return join(2, GIVEN, PLACES, points);
}

uint32_t plain_join_through_points(SPLINE_POINTS, LISTS, size_t *restrict points)
{
    return join(3, GIVEN, PLACES, points);
}
