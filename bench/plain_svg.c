/*
 * Path data, written plainly: one walk over the spans of the clamped curve cuts each of them into its piece and puts this behind the text so far. The text is
 * made in work space and copied when it is whole, since the last span may be refused as well as the first.
 */
#include <string.h>

#include "plain.h"
#include "tsaghnobir.h"

/* One axis of the walk: the curve's list, the points that carry the span, and those that will carry the next one. */
struct axis {
    const int32_t *ps;
    int32_t row[4], next[4];
};

/*
 * The knot v, which stands `times` times, goes once more into the span from `low` to v, where low stands m times: the last points of the row move towards
 * their left neighbours, the point k by as much as the knot far[k] says, and the last of them is kept for the next row. 0 where one would not be whole.
 */
static int insert(struct axis *axis, size_t m, const uint16_t *far, int64_t low, int64_t v, size_t times, size_t next_at)
{
    axis->next[next_at] = axis->row[m];
    for (size_t k = m; k > times; k--) {
        int64_t sum = (v - low) * axis->row[k] + (far[k] - v) * axis->row[k - 1], width = far[k] - low;
        if (sum % width != 0)
            return 0;
        axis->row[k] = (int32_t)(sum / width);
    }
    return 1;
}

/* The value at the end of the span i stands s times, and goes in until it stands m times. */
static uint32_t cut(struct axis *x, struct axis *y, size_t m, const uint16_t *knots, size_t i, size_t s, size_t *points)
{
    for (size_t times = s; times < m; times++) {
        const uint16_t *far = knots + i - (times - s);
        if (*points == TSB_POINTS_MOST)
            return TSB_FULL;
        ++*points;
        if (!insert(x, m, far, knots[i], knots[i + 1], times, m - times) || !insert(y, m, far, knots[i], knots[i + 1], times, m - times))
            return TSB_NOT_WHOLE;
    }
    return TSB_OK;
}

/* The row of the next span: the end of this one, the points that were kept, and the s points of the list that come behind the span i. */
static void turn(struct axis *axis, size_t m, size_t i, size_t s)
{
    axis->next[0] = axis->row[m];
    memcpy(axis->next + m - s + 1, axis->ps + i + 1, s * sizeof *axis->ps);
    memcpy(axis->row, axis->next, sizeof axis->row);
}

/* A space and a number of up to six digits. */
static uint8_t *put_number(uint8_t *at, int32_t z)
{
    uint8_t digits[6];
    uint32_t rest = z < 0 ? (uint32_t)-z : (uint32_t)z;
    size_t count = 0;
    *at++ = ' ';
    if (z < 0)
        *at++ = '-';
    do {
        digits[count++] = (uint8_t)('0' + rest % 10);
        rest /= 10;
    } while (rest != 0);
    while (count > 0)
        *at++ = digits[--count];
    return at;
}

static uint8_t *put_point(uint8_t *at, const struct axis *x, const struct axis *y, size_t k)
{
    return put_number(put_number(at, x->row[k]), y->row[k]);
}

static uint8_t *put_piece(uint8_t *at, const struct axis *x, const struct axis *y, size_t m)
{
    *at++ = ' ';
    *at++ = (uint8_t) " LQC"[m];
    for (size_t k = 1; k <= m; k++)
        at = put_point(at, x, y, k);
    return at;
}

/* The pieces of a curve with clamped ends. */
static uint32_t put_pieces(
    size_t m, const uint16_t *knots, const int32_t *xs, const int32_t *ys, size_t count, uint8_t *restrict out, size_t out_len, size_t *restrict length)
{
    size_t points = count, i = m;
    struct axis x = {.ps = xs}, y = {.ps = ys};
    uint8_t text[TSB_SVG_MOST], *at = text;
    memcpy(x.row, xs, (m + 1) * sizeof *xs);
    memcpy(y.row, ys, (m + 1) * sizeof *ys);
    *at++ = 'M';
    at = put_point(at, &x, &y, 0);
    while (i + 1 < count) {
        size_t s = 1;
        while (knots[i + 1 + s] == knots[i + 1])
            s++;
        uint32_t refusal = cut(&x, &y, m, knots, i, s, &points);
        if (refusal != TSB_OK)
            return refusal;
        at = put_piece(at, &x, &y, m);
        turn(&x, m, i, s);
        turn(&y, m, i, s);
        i += s;
    }
    at = put_piece(at, &x, &y, m);
    size_t size = (size_t)(at - text);
    if (out_len < size)
        return TSB_ROOM;
    memcpy(out, text, size);
    *length = size;
    return TSB_OK;
}

uint32_t plain_svg(CURVE, uint8_t *restrict out, size_t out_len, size_t *restrict length)
{
    uint32_t refusal = plain_check(degree, knots, knots_len, xs, xs_len, ys, ys_len);
    if (refusal != TSB_OK)
        return refusal;
    if (knots[0] == knots[degree] && knots[xs_len] == knots[knots_len - 1])
        return put_pieces(degree, knots, xs, ys, xs_len, out, out_len, length);
    uint16_t ts[TSB_KNOTS_MOST];
    int32_t us[TSB_POINTS_MOST], vs[TSB_POINTS_MOST];
    size_t points;
    refusal = plain_clamp_checked(
        degree, knots, knots_len, xs, xs_len, ys, ys_len, ts, TSB_KNOTS_MOST, us, TSB_POINTS_MOST, vs, TSB_POINTS_MOST, &points);
    if (refusal != TSB_OK)
        return refusal;
    return put_pieces(degree, ts, us, vs, points, out, out_len, length);
}
