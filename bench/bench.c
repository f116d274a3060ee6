/*
 * The proved library against the same calls written plainly in C, in one process on the same inputs. Both must give the same numbers, lists and
 * places, on broken records and jobs and on random curves too (as path data, clamped and unclamped); then each is timed, the two in turn, and the
 * least time of all rounds counts (2,000, or as many as two seconds hold). Prints nanoseconds a call, the ratio, and how the library's time grows with
 * the number of points; then what it takes to feed the bytes of the longest job in few bursts and in many.
 * Build and run: bench/run.sh
 */
#include <stddef.h>
#include <stdint.h>
#include <stdio.h>
#include <string.h>
#include <time.h>

#include "plain.h"
#include "random_ends.h"
#include "random_paths.h"
#include "tsaghnobir.h"

enum { ROUNDS = 2000, DEGREE = 3, STEP = 6, PARAMETERS = 16, SIZES = 4, RADIUS = 150, CLAMPS = 8, SPLITS = 7 };

enum call { CHECK, POINT, CARRYING, SPANS, INSERT, CLAMP_ENDS, UNCLAMP, JOIN, THROUGH, WRITE, SVG, READ, COMPACT, FEED, CALLS, BURSTS };

static const char *const names[CALLS] = {"check", "point", "carrying", "spans", "insert", "clamp", "unclamp", "join", "through", "write", "svg", "read", "compact", "feed"};
static const size_t sizes[SIZES] = {4, 64, 256, 1024};

/* How many bursts, and of how many bytes; the last may be shorter. Each comes behind the ones before it, or each to the front of the list. */
struct split {
    size_t bursts, size;
    int to_front;
};

enum { ONE_BURST, OF_64, OF_16, OF_ONE, HALF_OF_ONE, TO_FRONT, EMPTY };

static const struct split splits[SPLITS] = {
    {1, TSB_JOB_MOST, 0},
    {TSB_JOB_MOST / 64 + 1, 64, 0},
    {TSB_JOB_MOST / 16 + 1, 16, 0},
    {TSB_JOB_MOST, 1, 0},
    {TSB_JOB_MOST / 2, 1, 0},
    {TSB_JOB_MOST, 1, 1},
    {TSB_JOB_MOST, 0, 0},
};

struct input {
    size_t points, inserted_points, uncut_points, spline_points, length;
    uint16_t knots[TSB_KNOTS_MOST];
    uint16_t inserted_knots[TSB_KNOTS_MOST];
    uint16_t open_knots[TSB_KNOTS_MOST];
    uint16_t uncut_knots[TSB_KNOTS_MOST];
    int32_t xs[TSB_POINTS_MOST], ys[TSB_POINTS_MOST];
    int32_t slack_xs[TSB_POINTS_MOST], slack_ys[TSB_POINTS_MOST];
    uint16_t params[TSB_SPLINE_POINTS_MOST];
    int32_t px[TSB_SPLINE_POINTS_MOST], py[TSB_SPLINE_POINTS_MOST];
    int32_t tx[TSB_SPLINE_POINTS_MOST], ty[TSB_SPLINE_POINTS_MOST];
    uint32_t ts[PARAMETERS], v;
    size_t job_length, work_length, received;
    struct split split;
    uint8_t bytes[TSB_JOB_MOST + 1];
};

struct output {
    uint32_t refusal, degree, radius;
    double x, y;
    size_t place, count;
    uint16_t knots[TSB_KNOTS_MOST], lows[TSB_POINTS_MOST], highs[TSB_POINTS_MOST];
    int32_t xs[TSB_POINTS_MOST], ys[TSB_POINTS_MOST];
    uint8_t bytes[TSB_SVG_MOST]; /* of a record or of path data */
    size_t clamp_count, received;
    int32_t clamps[4 * TSB_CLAMPS_MOST];
    uint8_t work[TSB_WORK_MOST];
};

/* nanoseconds that one measurement may take */
#define LONGEST 2e9

static struct input in;
static struct output by_library, by_plain;

#define GIVEN DEGREE, in.knots, in.points + DEGREE + 1, in.xs, in.points, in.ys, in.points
#define FOR_INSERTION \
    DEGREE, in.inserted_knots, in.inserted_points + DEGREE + 1, in.xs, in.inserted_points, in.ys, in.inserted_points
#define UNCUT DEGREE, in.uncut_knots, in.uncut_points + DEGREE + 1, in.xs, in.uncut_points, in.ys, in.uncut_points
#define OPEN DEGREE, in.open_knots, in.points + DEGREE + 1, in.xs, in.points, in.ys, in.points
#define SLACK DEGREE, in.knots, in.points + DEGREE + 1, in.slack_xs, in.points, in.slack_ys, in.points
#define SPLINE \
    in.params, in.spline_points, in.px, in.spline_points, in.py, in.spline_points, in.tx, in.spline_points, in.ty, in.spline_points
#define PLACES out->knots, TSB_KNOTS_MOST, out->xs, TSB_POINTS_MOST, out->ys, TSB_POINTS_MOST
#define JOB_PLACES PLACES, out->clamps, 4 * TSB_CLAMPS_MOST, &out->degree, &out->count, &out->radius, &out->clamp_count, &out->place
#define CLAMP -40000, 40000, -200000, 200000

/* Functions that feed a job in one burst and tell its end, and that feed the longest in bursts, for each side. */
#define FEEDING(side)                                                                                                       \
    static uint32_t feed_##side(struct output *out)                                                                         \
    {                                                                                                                       \
        uint32_t refusal = side##_feed(in.bytes, in.job_length, out->work, in.work_length, &out->received);                 \
        return refusal | side##_feed_end(out->work, in.work_length, JOB_PLACES, &out->received);                            \
    }                                                                                                                       \
    static uint32_t bursts_##side(struct output *out)                                                                       \
    {                                                                                                                       \
        uint32_t refusal = 0;                                                                                               \
        size_t at = 0;                                                                                                      \
        out->received = in.received;                                                                                        \
        for (size_t k = 0; k < in.split.bursts; k++) {                                                                      \
            size_t count = TSB_JOB_MOST - at < in.split.size ? TSB_JOB_MOST - at : in.split.size;                           \
            refusal |= side##_feed(in.bytes + at, count, out->work, in.work_length, &out->received);                        \
            at += count;                                                                                                    \
            if (in.split.to_front)                                                                                          \
                out->received = 0;                                                                                          \
        }                                                                                                                   \
        return refusal;                                                                                                     \
    }

FEEDING(tsb)
FEEDING(plain)

/* A function that makes one call `times` times, for each side. */
#define REPEAT(side)                                                                                                        \
    static void repeat_##side(enum call call, size_t times, struct output *out)                                             \
    {                                                                                                                       \
        uint32_t refusal = 0;                                                                                               \
        for (size_t k = 0; k < times; k++)                                                                                  \
            switch (call) {                                                                                                 \
            case CHECK: refusal |= side##_check(GIVEN); break;                                                              \
            case POINT: refusal |= side##_point(GIVEN, in.ts[k % PARAMETERS], &out->x, &out->y); break;                     \
            case CARRYING: refusal |= side##_carrying(GIVEN, in.ts[k % PARAMETERS], &out->place); break;                    \
            case SPANS: refusal |= side##_spans(GIVEN, CLAMP, RADIUS, out->lows, TSB_POINTS_MOST, out->highs, TSB_POINTS_MOST, &out->count); break; \
            case INSERT: refusal |= side##_insert(FOR_INSERTION, in.v, PLACES, &out->count); break;                         \
            case CLAMP_ENDS: refusal |= side##_clamp_ends(OPEN, PLACES, &out->count); break;                                \
            case UNCLAMP: refusal |= side##_unclamp_right(SLACK, PLACES, &out->count); break;                               \
            case JOIN: refusal |= side##_join(SPLINE, PLACES, &out->count); break;                                          \
            case THROUGH: refusal |= side##_join_through_points(SPLINE, PLACES, &out->count); break;                        \
            case WRITE: refusal |= side##_write_record(GIVEN, out->bytes, TSB_RECORD_MOST, &out->count); break;             \
            case SVG: refusal |= side##_svg(UNCUT, out->bytes, TSB_SVG_MOST, &out->count); break;                           \
            case READ: refusal |= side##_read_record(in.bytes, in.length, PLACES, &out->degree, &out->count, &out->place); break; \
            case COMPACT: refusal |= side##_compact(SLACK, PLACES, &out->count, &out->place); break;                        \
            case FEED: refusal |= feed_##side(out); break;                                                                  \
            case BURSTS: refusal |= bursts_##side(out); break;                                                              \
            case CALLS: break;                                                                                              \
            }                                                                                                               \
        out->refusal = refusal;                                                                                             \
    }

REPEAT(tsb)
REPEAT(plain)

static uint32_t thrown(uint32_t *state)
{
    *state = *state * 1664525u + 1013904223u;
    return *state >> 8;
}

static uint32_t dice(void)
{
    static uint32_t state = 1;
    return thrown(&state);
}

/* Random curves have dice of their own, so that the curves that are timed do not depend on them. */
static uint32_t other_dice(void)
{
    static uint32_t state = 1;
    return thrown(&state);
}

/* Multiples of 36, so that a knot between two others that stand 6 apart goes in with whole points, and that the curve can be cut at all its knots. */
static int32_t coordinate(void)
{
    return ((int32_t)(dice() % 14001) - 7000) * 36;
}

static void fill_knots(uint16_t *knots, size_t points)
{
    for (size_t i = 0; i < points + DEGREE + 1; i++) {
        size_t at = i < DEGREE ? 0 : i > points ? points - DEGREE : i - DEGREE;
        knots[i] = (uint16_t)(STEP * at);
    }
}

/* The cutter's radius and clamps behind the record: a job. */
static void put_radius_and_clamps(size_t count)
{
    static const uint8_t radius[] = {6, 2, 0, RADIUS % 256, RADIUS / 256};
    uint8_t *at = in.bytes + in.length;
    for (size_t b = 0; b < sizeof radius; b++)
        *at++ = radius[b];
    for (size_t k = 0; k < count; k++) {
        int32_t side = 1000 * (int32_t)k, sides[] = {-side, side, side, 2 * side};
        *at++ = 5;
        *at++ = 16;
        *at++ = 0;
        for (size_t b = 0; b < 16; b++)
            *at++ = (uint8_t)((uint32_t)sides[b / 4] >> (8 * (b % 4)));
    }
    in.job_length = in.length + sizeof radius + 19 * count;
}

static void fill_input(size_t points)
{
    in.points = points;
    in.inserted_points = points < TSB_POINTS_MOST ? points : TSB_POINTS_MOST - 1;
    in.spline_points = (points - 1) / 3 + 1; /* for both joinings; joining through points gives as many points */
    in.uncut_points = (points - 1) / 3 + DEGREE; /* as many pieces as spline points join to, so as many points when cut */
    fill_knots(in.knots, points);
    fill_knots(in.inserted_knots, in.inserted_points);
    fill_knots(in.uncut_knots, in.uncut_points);
    for (size_t i = 0; i < points + DEGREE + 1; i++)
        in.open_knots[i] = (uint16_t)(STEP * i);
    for (size_t i = 0; i < points; i++) {
        in.xs[i] = coordinate();
        in.ys[i] = coordinate();
    }
    /* points of a straight line, every eighth moved off it: some knots can go, some cannot */
    for (size_t i = 0; i < points; i++) {
        in.slack_xs[i] = (in.knots[i + 1] + in.knots[i + 2] + in.knots[i + 3]) / 3;
        in.slack_ys[i] = 2 * in.slack_xs[i] + (i % 8 == 5 ? 36 : 0);
    }
    for (size_t i = 0; i < in.spline_points; i++) {
        in.params[i] = (uint16_t)(STEP * i);
        in.px[i] = coordinate();
        in.py[i] = coordinate();
        in.tx[i] = (int32_t)(dice() % 2001) - 1000;
        in.ty[i] = (int32_t)(dice() % 2001) - 1000;
    }
    uint32_t spans = (uint32_t)(points - DEGREE);
    for (uint32_t k = 0; k < PARAMETERS; k++)
        in.ts[k] = STEP * spans * k / (PARAMETERS - 1);
    in.v = STEP * (spans / 2) + 2;
    plain_write_record(GIVEN, in.bytes, TSB_RECORD_MOST, &in.length);
    put_radius_and_clamps(CLAMPS);
    in.work_length = TSB_WORK_MOST;
}

/* Nothing in it, but for the bytes that count as received before the call. */
static void prepare(struct output *out)
{
    memset(out, 85, sizeof *out);
    memcpy(out->work, in.bytes, in.received < TSB_WORK_MOST ? in.received : TSB_WORK_MOST);
    out->received = in.received;
}

/* The two sides agree on every parameter, in every place and every entry, used or not. */
static int agree(enum call call)
{
    for (size_t times = 1; times <= PARAMETERS; times++) {
        prepare(&by_library);
        prepare(&by_plain);
        repeat_tsb(call, times, &by_library);
        repeat_plain(call, times, &by_plain);
        if (by_library.refusal != 0 || memcmp(&by_library, &by_plain, sizeof by_library) != 0)
            return 0;
    }
    return 1;
}

/* Whether the two sides tell the same of one call, refused or not, and leave everything else alike. */
static int agree_on_one(enum call call)
{
    prepare(&by_library);
    prepare(&by_plain);
    repeat_tsb(call, 1, &by_library);
    repeat_plain(call, 1, &by_plain);
    return memcmp(&by_library, &by_plain, sizeof by_library) == 0;
}

/* The bytes cut everywhere, with every byte changed in four ways, and with a byte behind them: number and place of the fault. */
static int agree_on_broken(enum call call, size_t *length)
{
    static const uint8_t masks[] = {1, 2, 128, 255};
    size_t whole = *length;
    int same = 1;
    for (*length = 0; *length <= whole + 1; ++*length)
        same &= agree_on_one(call);
    *length = whole;
    for (size_t at = 0; at < whole; at++)
        for (size_t k = 0; k < sizeof masks; k++) {
            in.bytes[at] ^= masks[k];
            same &= agree_on_one(call);
            in.bytes[at] ^= masks[k];
        }
    return same;
}

/* With its end and without, behind what was received before, up to the end of the list and beyond, and with a list that is too short. */
static int agree_on_long(void)
{
    static const size_t lengths[] = {0, 1, TSB_JOB_MOST, TSB_JOB_MOST + 1};
    static const size_t counts[] = {0, 1, TSB_JOB_MOST - 1, TSB_JOB_MOST, TSB_JOB_MOST + 1, TSB_JOB_MOST + 2, (size_t)-1};
    int same = 1;
    for (size_t k = 0; k < sizeof counts / sizeof counts[0]; k++)
        for (size_t j = 0; j < sizeof lengths / sizeof lengths[0]; j++) {
            in.received = counts[k];
            in.job_length = lengths[j];
            in.split = (struct split){1, lengths[j], 0};
            same &= agree_on_one(FEED) & agree_on_one(BURSTS);
            in.work_length--;
            same &= agree_on_one(FEED) & agree_on_one(BURSTS);
            in.work_length++;
        }
    in.received = 0;
    return same;
}

static double now(void)
{
    struct timespec t;
    clock_gettime(CLOCK_MONOTONIC, &t);
    return (double)t.tv_sec * 1e9 + (double)t.tv_nsec;
}

/* Calls that take some 50 microseconds together. */
static size_t batch_of(enum call call)
{
    size_t times = 1;
    for (;;) {
        double began = now();
        repeat_plain(call, times, &by_plain);
        if (now() - began > 50000)
            return times;
        times *= 2;
    }
}

static void measure(enum call call, double *library, double *plain)
{
    size_t times = batch_of(call);
    *library = *plain = 1e18;
    double first = now();
    for (int round = 0; round < ROUNDS && (round < 20 || now() - first < LONGEST); round++) {
        double began = now();
        repeat_tsb(call, times, &by_library);
        double between = now();
        repeat_plain(call, times, &by_plain);
        double ended = now();
        if (between - began < *library)
            *library = between - began;
        if (ended - between < *plain)
            *plain = ended - between;
    }
    *library /= (double)times;
    *plain /= (double)times;
}

/* All bursts of one byte: against half of them, twice; against the one burst, twice, and as many calls: of one byte each to the front, or empty ones. */
static void print_growth(const char *side, const double *times)
{
    double all = times[OF_ONE], copy = 2 * times[ONE_BURST];
    printf("%-15s", side);
    printf("x%.2f of twice half of them, ", all / (2 * times[HALF_OF_ONE]));
    printf("x%.2f of twice the one burst and as many to the front, ", all / (copy + times[TO_FRONT]));
    printf("x%.2f of twice the one burst and as many empty ones\n", all / (copy + times[EMPTY]));
}

/* Feeding in bursts; 0 where the two sides differ. */
static int print_bursts(void)
{
    double library[SPLITS], plain[SPLITS];

    put_radius_and_clamps(TSB_CLAMPS_MOST);
    if (!agree_on_long())
        return 0;
    printf("\nfeeding without the end: nanoseconds, proved library / plain C (ratio), and nanoseconds a burst\n bursts   bytes\n");
    for (size_t k = 0; k < SPLITS; k++) {
        in.split = splits[k];
        if (!agree(BURSTS))
            return 0;
        measure(BURSTS, &library[k], &plain[k]);
        double bursts = (double)in.split.bursts;
        printf("%7u%8u%11.1f /%8.1f (%4.2f)", (unsigned)in.split.bursts, (unsigned)in.split.size, library[k], plain[k], library[k] / plain[k]);
        printf("%11.2f /%8.2f%s\n", library[k] / bursts, plain[k] / bursts, in.split.to_front ? "   each to the front" : "");
    }
    printf("%u bursts of one byte\n", (unsigned)TSB_JOB_MOST);
    print_growth("proved library", library);
    print_growth("plain C", plain);
    return 1;
}

int main(void)
{
    static double library[CALLS][SIZES], plain[CALLS][SIZES];

    if (!random_paths_agree(other_dice) || !random_ends_agree(other_dice)) {
        printf("the two sides differ on a random curve\n");
        return 1;
    }
    for (size_t s = 0; s < SIZES; s++) {
        fill_input(sizes[s]);
        if (s == 0 && (!agree_on_broken(READ, &in.length) || !agree_on_broken(FEED, &in.job_length))) {
            printf("the two sides differ on a broken record or job\n");
            return 1;
        }
        for (int call = 0; call < CALLS; call++) {
            if (!agree((enum call)call)) {
                printf("%s at %u points: the two sides differ\n", names[call], (unsigned)sizes[s]);
                return 1;
            }
            measure((enum call)call, &library[call][s], &plain[call][s]);
        }
    }
    printf("nanoseconds a call, proved library / plain C (ratio)\n%-9s", "points");
    for (size_t s = 0; s < SIZES; s++)
        printf("%25u", (unsigned)sizes[s]);
    printf("   growth of the library 64-256-1024\n");
    for (int call = 0; call < CALLS; call++) {
        printf("%-9s", names[call]);
        for (size_t s = 0; s < SIZES; s++)
            printf("%9.1f /%8.1f (%4.2f)", library[call][s], plain[call][s], library[call][s] / plain[call][s]);
        printf("   x%.1f x%.1f\n", library[call][2] / library[call][1], library[call][3] / library[call][2]);
    }
    if (!print_bursts()) {
        printf("feeding in bursts: the two sides differ\n");
        return 1;
    }
    return 0;
}
