/* The calls of include/tsaghnobir.h, each asked by the bytes of a case: see calls.h. Arguments are taken and lent in the order of the case. */
#include "calls.h"

#include <stddef.h>

#include "bytes.h"
#include "feed.h"
#include "lent.h"
#include "tsaghnobir.h"

struct curve {
    uint32_t degree;
    const uint16_t *knots;
    size_t knots_len;
    const int32_t *xs;
    size_t xs_len;
    const int32_t *ys;
    size_t ys_len;
};

struct result {
    uint16_t *knots;
    size_t knots_len;
    int32_t *xs;
    size_t xs_len;
    int32_t *ys;
    size_t ys_len;
};

#define GIVEN(c) (c).degree, (c).knots, (c).knots_len, (c).xs, (c).xs_len, (c).ys, (c).ys_len
#define PLACES(r) (r).knots, (r).knots_len, (r).xs, (r).xs_len, (r).ys, (r).ys_len

static const char *wrong;

static const void *take_list(const char *name, size_t width, size_t *count)
{
    const unsigned char *entries = take_entries(width, count);
    return lend_input(name, entries, *count, width);
}

static struct curve take_curve(void)
{
    struct curve c;
    c.degree = take_number();
    c.knots = take_list("knots", 2, &c.knots_len);
    c.xs = take_list("xs", 4, &c.xs_len);
    c.ys = take_list("ys", 4, &c.ys_len);
    return c;
}

static void *take_places(const char *name, size_t width, size_t *count)
{
    *count = take_number();
    return lend_result(name, *count, width);
}

static struct result take_result(void)
{
    struct result r;
    r.knots = take_places("out_knots", 2, &r.knots_len);
    r.xs = take_places("out_xs", 4, &r.xs_len);
    r.ys = take_places("out_ys", 4, &r.ys_len);
    return r;
}

static void put_result(struct result r)
{
    put_entries(r.knots, r.knots_len, 2);
    put_entries(r.xs, r.xs_len, 4);
    put_entries(r.ys, r.ys_len, 4);
}

int has_place(uint32_t refusal)
{
    return refusal == TSB_ENDED || refusal == TSB_TAG || refusal == TSB_LENGTH || refusal == TSB_LEFT_OVER;
}

static uint32_t check(void)
{
    struct curve c = take_curve();
    uint32_t refusal = tsb_check(GIVEN(c));
    put_number(refusal);
    return refusal;
}

static uint32_t point(void)
{
    struct curve c = take_curve();
    uint32_t t = take_number();
    double *x = lend_number("x", sizeof *x), *y = lend_number("y", sizeof *y);
    uint32_t refusal = tsb_point(GIVEN(c), t, x, y);
    put_number(refusal);
    if (refusal == TSB_OK) {
        put_entries(x, 1, sizeof *x);
        put_entries(y, 1, sizeof *y);
    }
    return refusal;
}

/* The export tells the first carrying entry; the answer holds the entries of one axis, 0 for x. */
static uint32_t carrying(void)
{
    struct curve c = take_curve();
    uint32_t t = take_number();
    uint32_t axis = take_number();
    size_t *first = lend_number("first", sizeof *first);
    uint32_t refusal = tsb_carrying(GIVEN(c), t, first);
    size_t count = refusal == TSB_OK ? (size_t)c.degree + 1 : 0;
    size_t len = axis == 0 ? c.xs_len : c.ys_len;
    put_number(refusal);
    if (count > len || (count != 0 && *first > len - count)) {
        wrong = "the carrying entries are not all in the list";
        count = 0;
    }
    put_count(count);
    if (count != 0)
        put_entries((axis == 0 ? c.xs : c.ys) + *first, count, 4);
    return refusal;
}

static uint32_t insert_or_remove(int remove)
{
    struct curve c = take_curve();
    uint32_t v = take_number();
    struct result r = take_result();
    size_t *points = lend_number("points", sizeof *points);
    uint32_t refusal = remove ? tsb_remove(GIVEN(c), v, PLACES(r), points) : tsb_insert(GIVEN(c), v, PLACES(r), points);
    put_number(refusal);
    if (refusal == TSB_OK)
        put_count(*points);
    put_result(r);
    return refusal;
}

/* A curve with other ends, full or open: both are asked alike. */
typedef uint32_t reshaping(
    uint32_t degree, const uint16_t *knots, size_t knots_len, const int32_t *xs, size_t xs_len, const int32_t *ys, size_t ys_len,
    uint16_t *out_knots, size_t out_knots_len, int32_t *out_xs, size_t out_xs_len, int32_t *out_ys, size_t out_ys_len, size_t *points);

static uint32_t reshape(reshaping *export)
{
    struct curve c = take_curve();
    struct result r = take_result();
    size_t *points = lend_number("points", sizeof *points);
    uint32_t refusal = export(GIVEN(c), PLACES(r), points);
    put_number(refusal);
    if (refusal == TSB_OK)
        put_count(*points);
    put_result(r);
    return refusal;
}

/* The answer has no place for the number of points: with the knots removed it must be that of before. */
static uint32_t compact(void)
{
    struct curve c = take_curve();
    struct result r = take_result();
    size_t *points = lend_number("points", sizeof *points), *removed = lend_number("removed", sizeof *removed);
    uint32_t refusal = tsb_compact(GIVEN(c), PLACES(r), points, removed);
    put_number(refusal);
    if (refusal == TSB_OK) {
        put_count(*removed);
        if (*points > c.xs_len || c.xs_len - *points != *removed)
            wrong = "points and removed are not together the old number of points";
    }
    put_result(r);
    return refusal;
}

/* Both ways to join: they differ in what they give, not in what they are asked. */
typedef uint32_t joining(
    const uint16_t *params, size_t params_len, const int32_t *px, size_t px_len, const int32_t *py, size_t py_len,
    const int32_t *tx, size_t tx_len, const int32_t *ty, size_t ty_len, uint16_t *out_knots, size_t out_knots_len,
    int32_t *out_xs, size_t out_xs_len, int32_t *out_ys, size_t out_ys_len, size_t *points);

static uint32_t join(joining *export)
{
    size_t params_len, px_len, py_len, tx_len, ty_len;
    const uint16_t *params = take_list("params", 2, &params_len);
    const int32_t *px = take_list("px", 4, &px_len), *py = take_list("py", 4, &py_len);
    const int32_t *tx = take_list("tx", 4, &tx_len), *ty = take_list("ty", 4, &ty_len);
    struct result r = take_result();
    size_t *points = lend_number("points", sizeof *points);
    uint32_t refusal = export(params, params_len, px, px_len, py, py_len, tx, tx_len, ty, ty_len, PLACES(r), points);
    put_number(refusal);
    if (refusal == TSB_OK)
        put_count(*points);
    put_result(r);
    return refusal;
}

static uint32_t spans(void)
{
    struct curve c = take_curve();
    int32_t side[4];
    for (int k = 0; k < 4; k++)
        side[k] = (int32_t)take_number();
    uint32_t radius = take_number();
    size_t lows_len, highs_len;
    uint16_t *lows = take_places("lows", 2, &lows_len), *highs = take_places("highs", 2, &highs_len);
    size_t *count = lend_number("count", sizeof *count);
    uint32_t refusal = tsb_spans(GIVEN(c), side[0], side[1], side[2], side[3], radius, lows, lows_len, highs, highs_len, count);
    put_number(refusal);
    if (refusal == TSB_OK)
        put_count(*count);
    put_entries(lows, lows_len, 2);
    put_entries(highs, highs_len, 2);
    return refusal;
}

/* A curve as bytes, a record or path data: both are asked alike. */
typedef uint32_t writing(
    uint32_t degree, const uint16_t *knots, size_t knots_len, const int32_t *xs, size_t xs_len, const int32_t *ys, size_t ys_len,
    uint8_t *out, size_t out_len, size_t *length);

static uint32_t write_curve(writing *export)
{
    struct curve c = take_curve();
    size_t out_len;
    uint8_t *out = take_places("out", 1, &out_len);
    size_t *length = lend_number("length", sizeof *length);
    uint32_t refusal = export(GIVEN(c), out, out_len, length);
    put_number(refusal);
    if (refusal == TSB_OK)
        put_count(*length);
    put_entries(out, out_len, 1);
    return refusal;
}

static uint32_t read_record(void)
{
    size_t bytes_len;
    const uint8_t *bytes = take_list("bytes", 1, &bytes_len);
    struct result r = take_result();
    uint32_t *degree = lend_number("degree", sizeof *degree);
    size_t *points = lend_number("points", sizeof *points), *place = lend_place("place");
    uint32_t refusal = tsb_read_record(bytes, bytes_len, PLACES(r), degree, points, place);
    put_number(refusal);
    if (refusal == TSB_OK) {
        put_number(*degree);
        put_count(*points);
    }
    if (has_place(refusal))
        put_count(*place);
    put_result(r);
    return refusal;
}

static uint32_t read_job(void)
{
    size_t bytes_len, clamps_len;
    const uint8_t *bytes = take_list("bytes", 1, &bytes_len);
    struct result r = take_result();
    int32_t *clamps = take_places("clamps", 4, &clamps_len);
    uint32_t *degree = lend_number("degree", sizeof *degree), *radius = lend_number("radius", sizeof *radius);
    size_t *points = lend_number("points", sizeof *points), *count = lend_number("clamp_count", sizeof *count);
    size_t *place = lend_place("place");
    uint32_t refusal = tsb_read_job(bytes, bytes_len, PLACES(r), clamps, clamps_len, degree, points, radius, count, place);
    put_number(refusal);
    if (refusal == TSB_OK) {
        put_number(*degree);
        put_count(*points);
        put_number(*radius);
        put_count(*count);
    }
    if (has_place(refusal))
        put_count(*place);
    put_result(r);
    put_entries(clamps, clamps_len, 4);
    return refusal;
}

enum ending ending_of(uint32_t refusal)
{
    return refusal == TSB_OK ? DONE : has_place(refusal) ? REFUSED_AT : REFUSED;
}

int call_export(unsigned char number, size_t step, struct outcome *outcome)
{
    wrong = NULL;
    outcome->goes_on = 0;
    switch (number) {
    case 1: outcome->ending = ending_of(check()); break;
    case 2: outcome->ending = ending_of(point()); break;
    case 3: outcome->ending = ending_of(carrying()); break;
    case 4: outcome->ending = ending_of(insert_or_remove(0)); break;
    case 5: outcome->ending = ending_of(insert_or_remove(1)); break;
    case 6: outcome->ending = ending_of(compact()); break;
    case 7: outcome->ending = ending_of(join(tsb_join_through_points)); break;
    case 8: outcome->ending = ending_of(spans()); break;
    case 9: outcome->ending = ending_of(write_curve(tsb_write_record)); break;
    case 10: outcome->ending = ending_of(read_record()); break;
    case 11: outcome->ending = ending_of(read_job()); break;
    /* 12 is the text of clampcheck, which has no export */
    case 13: outcome->goes_on = feed_step(step, &outcome->ending); break;
    case 14: outcome->ending = ending_of(join(tsb_join)); break;
    case 15: outcome->ending = ending_of(write_curve(tsb_svg)); break;
    case 16: outcome->ending = ending_of(reshape(tsb_clamp_ends)); break;
    case 17: outcome->ending = ending_of(reshape(tsb_unclamp_right)); break;
    default: return 0;
    }
    outcome->wrong = counts_fit() ? wrong : "a count or a place does not fit into 32 bits";
    return 1;
}
