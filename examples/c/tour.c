/*
 * A tour of the library from C: the point on a curve, a knot inserted and removed, all knots removed that can go, open ends
 * clamped and opened again, spline points joined by both calls, the spans where a cutter may meet a clamp, curves as path data
 * of SVG, a record written and read back, records and jobs that are broken, with the place where they break, jobs that come
 * in bursts, and some refusals.
 * Build and run: examples/c/build.sh run
 */
#include <stddef.h>
#include <stdint.h>
#include <stdio.h>

#include "tsaghnobir.h"

/* A curve with places for the largest result. */
struct curve {
    uint32_t degree;
    size_t points;
    uint16_t knots[TSB_KNOTS_MOST];
    int32_t xs[TSB_POINTS_MOST];
    int32_t ys[TSB_POINTS_MOST];
};

/* The parameters that every call on a curve begins with, and those of a result. */
#define GIVEN(c) \
    (c).degree, (c).knots, (c).points + (c).degree + 1, (c).xs, (c).points, (c).ys, (c).points
#define PLACES(c) (c).knots, TSB_KNOTS_MOST, (c).xs, TSB_POINTS_MOST, (c).ys, TSB_POINTS_MOST

/* Spline points, and the parameters that both joining calls begin with. */
struct spline {
    size_t count;
    uint16_t params[3];
    int32_t px[3], py[3], tx[3], ty[3];
};

#define SPLINE(s) \
    (s).params, (s).count, (s).px, (s).count, (s).py, (s).count, (s).tx, (s).count, (s).ty, (s).count

static struct curve a = {3, 4, {0, 0, 0, 0, 4, 4, 4, 4}, {0, 0, 8, 8}, {0, 8, 8, 0}};
static struct curve b = {2, 4, {0, 0, 0, 2, 4, 4, 4}, {0, 4, 8, 12}, {0, 8, 8, 0}};
static struct curve open_ends = {3, 5, {0, 1, 2, 3, 4, 5, 6, 7, 8}, {0, 6, 12, 18, 24}, {0, 6, 0, 6, 0}};
static struct curve open_line = {1, 3, {0, 1, 1, 2, 3}, {0, 5, 9}, {0, 5, 7}};
static struct spline two = {2, {0, 12}, {0, 12}, {0, 0}, {1, 1}, {1, -1}};
static struct spline three = {3, {0, 3, 9}, {0, 6, 12}, {0, -6, 0}, {1, 1, 1}, {-2, 0, 5}};
static struct curve result, kept;
static uint8_t bytes[TSB_JOB_MOST];

static void print_points(const struct curve *c)
{
    for (size_t i = 0; i < c->points; i++)
        printf(" (%d,%d)", (int)c->xs[i], (int)c->ys[i]);
    printf("\n");
}

static void print_point_at(const struct curve *c, uint32_t t)
{
    double x, y;
    uint32_t refusal = tsb_point(GIVEN(*c), t, &x, &y);
    if (refusal == TSB_OK)
        printf("point at %u: (%g, %g)\n", (unsigned)t, x, y);
    else
        printf("point at %u: refused %u\n", (unsigned)t, (unsigned)refusal);
}

static void print_inserted(const struct curve *c, uint32_t v)
{
    uint32_t refusal = tsb_insert(GIVEN(*c), v, PLACES(result), &result.points);
    result.degree = c->degree;
    printf("knot %u inserted:", (unsigned)v);
    if (refusal == TSB_OK)
        print_points(&result);
    else
        printf(" refused %u\n", (unsigned)refusal);
}

static void print_removed(const struct curve *c, uint32_t v)
{
    uint32_t refusal = tsb_remove(GIVEN(*c), v, PLACES(result), &result.points);
    result.degree = c->degree;
    printf("knot %u removed:", (unsigned)v);
    if (refusal == TSB_OK)
        print_points(&result);
    else
        printf(" refused %u\n", (unsigned)refusal);
}

static void print_compacted(const struct curve *c)
{
    size_t removed;
    uint32_t refusal = tsb_compact(GIVEN(*c), PLACES(result), &result.points, &removed);
    result.degree = c->degree;
    printf("compacted:");
    if (refusal == TSB_OK) {
        printf(" %u removed,", (unsigned)removed);
        print_points(&result);
    } else
        printf(" refused %u\n", (unsigned)refusal);
}

/* Path data has no zero byte at its end: its length says how much to print. */
static void print_path(const struct curve *c, size_t places)
{
    static uint8_t path[TSB_SVG_MOST];
    size_t length;
    uint32_t refusal = tsb_svg(GIVEN(*c), path, places, &length);
    printf("path data in %u places:", (unsigned)places);
    if (refusal == TSB_OK)
        printf(" %.*s\n", (int)length, (const char *)path);
    else
        printf(" refused %u\n", (unsigned)refusal);
}

/* A curve whose ends were clamped or opened, with its knots. */
static void print_ends(const char *name, uint32_t refusal)
{
    printf("%s:", name);
    if (refusal != TSB_OK) {
        printf(" refused %u\n", (unsigned)refusal);
        return;
    }
    for (size_t i = 0; i < result.points + result.degree + 1; i++)
        printf(" %u", (unsigned)result.knots[i]);
    printf(",");
    print_points(&result);
}

static void print_clamped(const struct curve *c)
{
    result.degree = c->degree;
    print_ends("both ends clamped", tsb_clamp_ends(GIVEN(*c), PLACES(result), &result.points));
}

static void print_unclamped(const struct curve *c)
{
    result.degree = c->degree;
    print_ends("right end opened", tsb_unclamp_right(GIVEN(*c), PLACES(result), &result.points));
}

/* Clamped, the curve begins and ends at control points; opened at the right, it has the points there that it had before; clamped again, it is what it was. */
static void print_open_ends(struct curve *c)
{
    printf("curve with open ends: check %u\n", (unsigned)tsb_check(GIVEN(*c)));
    print_point_at(c, 2); /* its domain goes from 3 to 5 */
    print_point_at(c, 3);
    print_inserted(c, 3);
    print_unclamped(c);
    print_clamped(c);
    kept = result;
    print_clamped(&kept);
    print_unclamped(&kept);
    kept = result;
    print_clamped(&kept);
    print_path(c, TSB_SVG_MOST); /* of a clamped copy */
    c->xs[0] = 3;
    print_clamped(c); /* it would begin at x = 6.5 */
    print_path(c, TSB_SVG_MOST);
}

static void print_joined(const char *name, uint32_t refusal)
{
    result.degree = 3;
    printf("joined %s:", name);
    if (refusal == TSB_OK) {
        printf(" %u points,", (unsigned)result.points);
        print_points(&result);
    } else
        printf(" refused %u\n", (unsigned)refusal);
}

/* One curve without its meeting point among the control points, and with it: a knot inserted there brings it back, as path data does. */
static void print_joined_by_both(const struct spline *s)
{
    print_joined("by default", tsb_join(SPLINE(*s), PLACES(result), &result.points));
    kept = result;
    print_point_at(&kept, s->params[1]);
    print_inserted(&kept, s->params[1]);
    print_path(&kept, TSB_SVG_MOST);
    print_joined("through points", tsb_join_through_points(SPLINE(*s), PLACES(result), &result.points));
    print_point_at(&result, s->params[1]);
    print_path(&result, TSB_SVG_MOST);
}

static void print_spans(const struct curve *c, int32_t low_x, int32_t high_x, int32_t low_y, int32_t high_y, uint32_t radius)
{
    uint16_t lows[TSB_POINTS_MOST], highs[TSB_POINTS_MOST];
    size_t count;
    uint32_t refusal = tsb_spans(
        GIVEN(*c), low_x, high_x, low_y, high_y, radius, lows, TSB_POINTS_MOST, highs, TSB_POINTS_MOST, &count);
    printf("clamp x %d..%d y %d..%d, radius %u:", (int)low_x, (int)high_x, (int)low_y, (int)high_y, (unsigned)radius);
    if (refusal != TSB_OK)
        printf(" refused %u", (unsigned)refusal);
    else if (count == 0)
        printf(" clear");
    else
        for (size_t i = 0; i < count; i++)
            printf(" may meet %u..%u", (unsigned)lows[i], (unsigned)highs[i]);
    printf("\n");
}

/* The spans where a cutter may meet a clamp, for cutters of some radius; radius 0 is the centre line. */
static void print_clamps(const struct curve *c)
{
    print_spans(c, 2, 3, 5, 9, 0);
    print_spans(c, 9, 12, 0, 4, 0);
    print_spans(c, 9, 12, 0, 4, 1); /* the line ends at (8, 0): it misses this clamp, and a cutter of radius 1 does not */
    print_spans(c, 8, 10, 8, 9, 0);
    print_spans(c, -4000, -4000, -262144, 262144, 4096); /* widened, its y sides pass +-262144 */
    print_spans(c, 3, 2, 5, 9, 0);
    print_spans(c, 3, 2, 5, 9, 4097); /* both are wrong: the radius is judged first */
}

/* What a reader refused. A place is told with four numbers alone; with any other the caller's is as it was. */
static void print_unread(uint32_t refusal, size_t place)
{
    if (refusal == TSB_ENDED || refusal == TSB_TAG || refusal == TSB_LENGTH || refusal == TSB_LEFT_OVER)
        printf(" refused %u at %u\n", (unsigned)refusal, (unsigned)place);
    else
        printf(" refused %u\n", (unsigned)refusal);
}

static void print_record(const char *name, size_t length)
{
    size_t place = 0;
    uint32_t refusal = tsb_read_record(length == 0 ? NULL : bytes, length, PLACES(result), &result.degree, &result.points, &place);
    printf("%s:", name);
    if (refusal == TSB_OK) {
        printf(" degree %u", (unsigned)result.degree);
        print_points(&result);
    } else
        print_unread(refusal, place);
}

static void print_written_and_read(const struct curve *c)
{
    size_t length;
    uint32_t refusal = tsb_write_record(GIVEN(*c), bytes, sizeof bytes, &length);
    if (refusal != TSB_OK) {
        printf("record: refused %u\n", (unsigned)refusal);
        return;
    }
    printf("record of %u bytes\n", (unsigned)length);
    print_record("read", length);
    print_record("without its last byte", length - 1);
    print_record("of no bytes", 0);
    print_record("with a byte behind it", length + 1);
    bytes[4] = 7;
    print_record("with tag 7 in place of 2", length);
    bytes[4] = 2;
    bytes[5] = 15;
    print_record("with knots of 15 bytes", length);
    bytes[5] = 16;
    bytes[3] = 4;
    print_record("with degree 4", length);
}

/* What a job holds beside its curve. */
static uint32_t radius;
static int32_t clamps[4 * TSB_CLAMPS_MOST];

/* What reading a job of one clamp gave: the clamp is held against the curve, with the job's own radius. */
static void print_read_job(uint32_t refusal, size_t count, size_t place)
{
    if (refusal != TSB_OK) {
        print_unread(refusal, place);
        return;
    }
    printf(" radius %u, %u clamp\n", (unsigned)radius, (unsigned)count);
    print_spans(&result, clamps[0], clamps[1], clamps[2], clamps[3], radius);
}

static void print_job(const char *name, size_t length)
{
    size_t count = 0, place = 0;
    uint32_t refusal = tsb_read_job(
        bytes, length, PLACES(result), clamps, 4 * TSB_CLAMPS_MOST, &result.degree, &result.points, &radius, &count, &place);
    printf("%s:", name);
    print_read_job(refusal, count, place);
}

/* In place of a serial line: it brings the first bytes, and when it is asked the third time none has come. */
struct line {
    size_t at, length;
    unsigned asked;
};

static size_t receive(struct line *line, uint8_t *burst, size_t most)
{
    size_t count = 0;
    if (++line->asked != 3)
        while (count < most && line->at < line->length)
            burst[count++] = bytes[line->at++];
    return count;
}

/* The same over the line. Work list and count go from call to call; each end sets the count to 0 for the next job. */
static void print_fed(const char *name, size_t length)
{
    static uint8_t work[TSB_WORK_MOST], burst[32];
    static size_t received = 0;
    struct line line = {0, length, 0};
    size_t count = 0, place = 0;
    uint32_t refusal;

    printf("%s fed by", name);
    while (line.at < line.length) {
        size_t came = receive(&line, burst, sizeof burst);
        printf(" %u", (unsigned)came);
        tsb_feed(burst, came, work, TSB_WORK_MOST, &received);
    }
    refusal = tsb_feed_end(
        work, TSB_WORK_MOST, PLACES(result), clamps, 4 * TSB_CLAMPS_MOST, &result.degree, &result.points, &radius, &count, &place,
        &received);
    printf(":");
    print_read_job(refusal, count, place);
}

static void print_radius_faults(size_t radius_at, size_t length)
{
    print_job("that ends before its radius", radius_at);
    bytes[radius_at] = 5;
    print_job("with tag 5 in place of 6", length);
    bytes[radius_at] = 6;
    bytes[radius_at + 1] = 1;
    print_job("with a radius of one byte", length);
    bytes[radius_at + 1] = 2;
    bytes[radius_at + 4] = 16;
    print_job("with radius 4097", length);
    bytes[radius_at + 4] = 0;
}

static void print_clamp_faults(size_t clamp_at, size_t length)
{
    print_job("cut between the two bytes of the clamp's length", clamp_at + 2);
    bytes[clamp_at + 1] = 12;
    print_job("with a clamp of 12 bytes", length);
    bytes[clamp_at] = 6;
    print_job("with tag 6 in place of 5 besides", length);
    bytes[clamp_at] = 5;
    bytes[clamp_at + 1] = 16;
}

/* A curve's record, a radius (tag 6, length 2) and one clamp (tag 5, length 16, four sides); each number has its low byte first. */
static void print_jobs(const struct curve *c)
{
    static const uint8_t behind[] = {6, 2, 0, 1, 0, 5, 16, 0, 9, 0, 0, 0, 12, 0, 0, 0, 0, 0, 0, 0, 4, 0, 0, 0};
    size_t record, clamp_at, length;
    tsb_write_record(GIVEN(*c), bytes, sizeof bytes, &record);
    for (size_t i = 0; i < sizeof behind; i++)
        bytes[record + i] = behind[i];
    clamp_at = record + 5;
    length = record + sizeof behind;
    print_job("job", length);
    print_radius_faults(record, length);
    print_clamp_faults(clamp_at, length);
    print_fed("job", length);
    bytes[clamp_at + 1] = 12;
    print_fed("with a clamp of 12 bytes", length);
    bytes[clamp_at + 1] = 16;
    print_fed("next job", length);
}

int main(void)
{
    size_t first;

    printf("curve A: check %u\n", (unsigned)tsb_check(GIVEN(a)));
    for (uint32_t t = 0; t <= 5; t++)
        if (t != 3)
            print_point_at(&a, t);
    tsb_carrying(GIVEN(a), 4, &first);
    printf("carried at 4 by points %u to %u\n", (unsigned)first, (unsigned)(first + a.degree));
    print_clamps(&a);
    print_path(&a, TSB_SVG_MOST);
    print_path(&a, 19); /* just long enough */
    print_path(&a, 18);
    print_written_and_read(&a);
    print_jobs(&a);

    printf("curve B: check %u\n", (unsigned)tsb_check(GIVEN(b)));
    print_point_at(&b, 1);
    print_point_at(&b, 2);
    print_path(&b, TSB_SVG_MOST); /* its pieces meet at the point at 2 */
    print_inserted(&b, 1);
    kept = result; /* a result list never shares memory with an input */
    print_compacted(&kept);
    print_inserted(&b, 2);
    kept = result;
    print_inserted(&kept, 2);
    print_inserted(&b, 4);
    print_removed(&b, 2);
    print_removed(&b, 3);
    b.xs[2] = 10;
    print_removed(&b, 2);
    b.xs[2] = 9;
    print_path(&b, TSB_SVG_MOST); /* they would meet at x = 6.5 */

    print_open_ends(&open_ends);
    print_clamped(&open_line); /* its first point carries nothing */

    print_joined("from 0 to 12", tsb_join(SPLINE(two), PLACES(result), &result.points));
    two.params[1] = 4;
    print_joined("from 0 to 4", tsb_join(SPLINE(two), PLACES(result), &result.points));
    print_joined_by_both(&three);
    return 0;
}
