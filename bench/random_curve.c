/*
 * Random curves of every degree, with clamped or open ends and with knots that stand as often as they may: curves whose new points are whole, curves with a
 * coordinate that falls between two grid lines somewhere, curves that are full before they are cut, and broken ones.
 */
#include "random_curve.h"

enum { LONG_ONES = 4 };

/* Few values besides two at the ends, or about as many as a curve can be cut at. */
static size_t values_of(size_t m, int few, uint32_t (*dice)(void))
{
    return few ? dice() % 9 : (TSB_POINTS_MOST - 1) / m - 3 + dice() % 6;
}

/*
 * Evenly spaced values or not, near each other or as far apart as they can be, each as often as the dice say: always once, always m times, or as it comes. The
 * ends are m + 1 equal knots, or there are m values more before and behind the others, and the two at the ends stand up to m + 1 times.
 */
static void fill_knots(struct random_curve *curve, size_t m, size_t values, uint32_t (*dice)(void))
{
    int even = dice() % 4 != 0, open = dice() % 2;
    size_t last = values + 1 + (open ? 2 * m : 0);
    uint32_t widest = TSB_KNOT_MOST / (uint32_t)last, gap = dice() % 2 ? 1 + dice() % 8 : widest - dice() % 8, habit = dice() % 3;
    uint16_t value = (uint16_t)(dice() % (TSB_KNOT_MOST - (uint32_t)last * gap + 1)), *at = curve->knots;
    for (size_t k = 0; k <= last; k++) {
        size_t ends = open ? 1 + dice() % (m + 1) : m + 1;
        size_t times = k == 0 || k == last ? ends : habit == 0 ? 1 : habit == 1 ? m : 1 + dice() % m;
        while (times-- > 0)
            *at++ = value;
        value += (uint16_t)(even ? gap : 1 + dice() % gap);
    }
    curve->knots_len = (size_t)(at - curve->knots);
}

/* Multiples of a number that makes all new points whole, mostly, where the values are evenly spaced; or any. They reach as far as they may, or a little way. */
static void fill_points(struct random_curve *curve, size_t m, uint32_t (*dice)(void))
{
    static const int32_t units[] = {12, 12, 3600, 1};
    int32_t unit = units[dice() % 4], most = TSB_COORDINATE_MOST / unit / (dice() % 2 ? 1 : 12);
    curve->xs_len = curve->ys_len = curve->knots_len - m - 1;
    for (size_t j = 0; j < curve->xs_len; j++) {
        curve->xs[j] = unit * ((int32_t)(dice() % (2 * (uint32_t)most + 1)) - most);
        curve->ys[j] = dice() % 8 == 0 ? 0 : unit * ((int32_t)(dice() % (2 * (uint32_t)most + 1)) - most);
    }
}

/* One thing changed, in two curves of three; a point is one of the last, where a long curve is full, or any. */
static void change_something(struct random_curve *curve, uint32_t (*dice)(void))
{
    size_t last = curve->xs_len - 1, point = dice() % 2 ? last - dice() % (last < 8 ? last : 8) : dice() % curve->xs_len;
    size_t knot = dice() % curve->knots_len;
    switch (dice() % 24) {
    case 0: curve->degree = dice() % 6; break;
    case 1: curve->ys_len--; break;
    case 2: curve->knots_len--; break;
    case 3: curve->knots[knot] = (uint16_t)(dice() % 16400); break;
    case 4: curve->knots[knot > 0 ? knot - 1 : 1] = curve->knots[knot]; break;
    case 5: curve->xs[point] = TSB_COORDINATE_MOST + 1; break;
    case 6: curve->ys[point] = -TSB_COORDINATE_MOST - 1; break;
    case 7: curve->xs_len = curve->ys_len = dice() % 5; break;
    case 8: curve->knots[curve->degree] = curve->knots[curve->degree + 1]; break;
    case 9: case 10: case 11: curve->xs[point] /= 2; break;
    case 12: case 13: case 14: curve->ys[point] += curve->ys[point] < 0 ? 1 : -1; break;
    case 15: curve->xs[point] /= 3; break;
    case 16: curve->knots[curve->xs_len] = curve->knots[curve->degree]; break;
    }
}

void random_curve(struct random_curve *curve, size_t k, uint32_t (*dice)(void))
{
    size_t m = 1 + dice() % 3;
    curve->degree = (uint32_t)m;
    fill_knots(curve, m, values_of(m, k % LONG_ONES != 0, dice), dice);
    fill_points(curve, m, dice);
    change_something(curve, dice);
}
