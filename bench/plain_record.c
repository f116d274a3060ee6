/* Writing and reading a record, and reading a job, written plainly. */
#include "plain.h"
#include "tsaghnobir.h"

static uint8_t *put_head(uint8_t *at, uint8_t tag, size_t length)
{
    at[0] = tag;
    at[1] = (uint8_t)length;
    at[2] = (uint8_t)(length >> 8);
    return at + 3;
}

static uint8_t *put_coordinates(uint8_t *at, uint8_t tag, const int32_t *zs, size_t count)
{
    at = put_head(at, tag, 4 * count);
    for (size_t i = 0; i < count; i++) {
        uint32_t z = (uint32_t)zs[i];
        at[4 * i] = (uint8_t)z;
        at[4 * i + 1] = (uint8_t)(z >> 8);
        at[4 * i + 2] = (uint8_t)(z >> 16);
        at[4 * i + 3] = (uint8_t)(z >> 24);
    }
    return at + 4 * count;
}

uint32_t plain_write_record(CURVE, uint8_t *restrict out, size_t out_len, size_t *restrict length)
{
    uint32_t refusal = plain_check(degree, knots, knots_len, xs, xs_len, ys, ys_len);
    if (refusal != TSB_OK)
        return refusal;
    size_t size = 13 + 2 * knots_len + 4 * xs_len + 4 * ys_len;
    if (out_len < size)
        return TSB_ROOM;
    uint8_t *at = put_head(out, 1, 1);
    *at++ = (uint8_t)degree;
    at = put_head(at, 2, 2 * knots_len);
    for (size_t i = 0; i < knots_len; i++) {
        at[2 * i] = (uint8_t)knots[i];
        at[2 * i + 1] = (uint8_t)(knots[i] >> 8);
    }
    at = put_coordinates(at + 2 * knots_len, 3, xs, xs_len);
    put_coordinates(at, 4, ys, ys_len);
    *length = size;
    return TSB_OK;
}

static uint32_t fault(uint32_t refusal, size_t at, size_t *restrict place)
{
    *place = at;
    return refusal;
}

/* A field that begins at `at` with this tag, in entries of `width` bytes and of `least` to `most` bytes: its length, or its first fault and the place of it. */
static uint32_t field(
    const uint8_t *bytes, size_t bytes_len, size_t at, uint8_t tag, size_t width, size_t least, size_t most,
    size_t *restrict length, size_t *restrict place)
{
    if (at == bytes_len)
        return fault(TSB_ENDED, bytes_len, place);
    if (bytes[at] != tag)
        return fault(TSB_TAG, at, place);
    if (bytes_len - at < 3)
        return fault(TSB_ENDED, bytes_len, place);
    *length = bytes[at + 1] + 256 * (size_t)bytes[at + 2];
    if (*length < least || *length > most || *length % width != 0)
        return fault(TSB_LENGTH, at + 1, place);
    if (bytes_len - at - 3 < *length)
        return fault(TSB_ENDED, bytes_len, place);
    return TSB_OK;
}

/* Bytes to numbers, into work space: the lent lists stay as they are until everything is judged. */
static void get_coordinates(const uint8_t *at, size_t count, int32_t *restrict zs)
{
    for (size_t i = 0; i < count; i++)
        zs[i] = (int32_t)((uint32_t)at[4 * i] | (uint32_t)at[4 * i + 1] << 8 | (uint32_t)at[4 * i + 2] << 16 | (uint32_t)at[4 * i + 3] << 24);
}

/* Where x and y begin in a record, where it ends, and its numbers of entries. */
struct layout {
    size_t x_at, y_at, end, knots, xs, ys;
};

/* The four fields at the front of the bytes, or the first fault in them and the place of it. Inlined into both readers: a call would cost them 2 ns. */
static inline __attribute__((always_inline)) uint32_t record_layout(
    const uint8_t *bytes, size_t bytes_len, struct layout *restrict found, size_t *restrict place)
{
    size_t one, ts, x, y;
    uint32_t broken = field(bytes, bytes_len, 0, 1, 1, 1, 1, &one, place);
    if (broken != TSB_OK)
        return broken;
    broken = field(bytes, bytes_len, 4, 2, 2, 0, 2 * TSB_KNOTS_MOST, &ts, place);
    if (broken != TSB_OK)
        return broken;
    found->x_at = 4 + 3 + ts;
    broken = field(bytes, bytes_len, found->x_at, 3, 4, 0, 4 * TSB_POINTS_MOST, &x, place);
    if (broken != TSB_OK)
        return broken;
    found->y_at = found->x_at + 3 + x;
    broken = field(bytes, bytes_len, found->y_at, 4, 4, 0, 4 * TSB_POINTS_MOST, &y, place);
    if (broken != TSB_OK)
        return broken;
    found->end = found->y_at + 3 + y;
    found->knots = ts / 2;
    found->xs = x / 4;
    found->ys = y / 4;
    return TSB_OK;
}

/* A curve at work, as the bytes have it. */
struct work {
    int32_t xs[TSB_POINTS_MOST], ys[TSB_POINTS_MOST];
    uint16_t knots[TSB_KNOTS_MOST];
};

static uint32_t get_curve(const uint8_t *bytes, const struct layout *at, struct work *restrict w)
{
    for (size_t i = 0; i < at->knots; i++)
        w->knots[i] = (uint16_t)(bytes[7 + 2 * i] | bytes[8 + 2 * i] << 8);
    get_coordinates(bytes + at->x_at + 3, at->xs, w->xs);
    get_coordinates(bytes + at->y_at + 3, at->ys, w->ys);
    return plain_check(bytes[3], w->knots, at->knots, w->xs, at->xs, w->ys, at->ys);
}

static void hand_over(
    const struct work *w, const struct layout *at, uint16_t *restrict out_knots, int32_t *restrict out_xs, int32_t *restrict out_ys)
{
    for (size_t i = 0; i < at->knots; i++)
        out_knots[i] = w->knots[i];
    for (size_t i = 0; i < at->xs; i++)
        out_xs[i] = w->xs[i];
    for (size_t i = 0; i < at->ys; i++)
        out_ys[i] = w->ys[i];
}

uint32_t plain_read_record(
    const uint8_t *bytes, size_t bytes_len, LISTS, uint32_t *restrict degree, size_t *restrict points, size_t *restrict place)
{
    struct layout at;
    uint32_t broken = record_layout(bytes, bytes_len, &at, place);
    if (broken != TSB_OK)
        return broken;
    if (bytes_len != at.end)
        return fault(TSB_LEFT_OVER, at.end, place);
    struct work w;
    uint32_t refusal = get_curve(bytes, &at, &w);
    if (refusal != TSB_OK)
        return refusal;
    if (out_knots_len < at.knots || out_xs_len < at.xs || out_ys_len < at.ys)
        return TSB_ROOM;
    hand_over(&w, &at, out_knots, out_xs, out_ys);
    *degree = bytes[3];
    *points = at.xs;
    return TSB_OK;
}

/* The number of clamps from `at` to the end of the bytes, or the first fault in them and the place of it. */
static uint32_t clamps_behind(const uint8_t *bytes, size_t bytes_len, size_t at, size_t *restrict count, size_t *restrict place)
{
    size_t sixteen;
    for (*count = 0; at < bytes_len; ++*count) {
        if (*count == TSB_CLAMPS_MOST)
            return fault(TSB_LEFT_OVER, at, place);
        uint32_t broken = field(bytes, bytes_len, at, 5, 16, 16, 16, &sixteen, place);
        if (broken != TSB_OK)
            return broken;
        at += 3 + 16;
    }
    return TSB_OK;
}

static int all_rectangles(const int32_t *sides, size_t count)
{
    for (size_t k = 0; k < 4 * count; k++)
        if (sides[k] < -TSB_COORDINATE_MOST || sides[k] > TSB_COORDINATE_MOST || (k % 2 == 1 && sides[k - 1] > sides[k]))
            return 0;
    return 1;
}

uint32_t plain_read_job(const uint8_t *bytes, size_t bytes_len, JOB)
{
    struct layout at;
    size_t two, count;
    uint32_t broken = record_layout(bytes, bytes_len, &at, place);
    if (broken != TSB_OK)
        return broken;
    broken = field(bytes, bytes_len, at.end, 6, 2, 2, 2, &two, place);
    if (broken != TSB_OK)
        return broken;
    size_t clamps_at = at.end + 3 + 2;
    broken = clamps_behind(bytes, bytes_len, clamps_at, &count, place);
    if (broken != TSB_OK)
        return broken;
    struct work w;
    uint32_t refusal = get_curve(bytes, &at, &w);
    if (refusal != TSB_OK)
        return refusal;
    uint32_t steps = bytes[at.end + 3] + 256 * (uint32_t)bytes[at.end + 4];
    if (steps > TSB_RADIUS_MOST)
        return TSB_RADIUS;
    int32_t sides[4 * TSB_CLAMPS_MOST];
    for (size_t k = 0; k < count; k++)
        get_coordinates(bytes + clamps_at + 19 * k + 3, 4, sides + 4 * k);
    if (!all_rectangles(sides, count))
        return TSB_RECTANGLE;
    if (out_knots_len < at.knots || out_xs_len < at.xs || out_ys_len < at.ys || clamps_len < 4 * count)
        return TSB_ROOM;
    hand_over(&w, &at, out_knots, out_xs, out_ys);
    for (size_t k = 0; k < 4 * count; k++)
        clamps[k] = sides[k];
    *degree = bytes[3];
    *points = at.xs;
    *radius = steps;
    *clamp_count = count;
    return TSB_OK;
}
