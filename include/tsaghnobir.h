/*
 * Tsaghnobir: plane B-spline curves on a grid of whole numbers.
 *
 * Every function here is an export of a proved library: for any numbers and any contents of the lists it
 * ends, does nothing undefined, and gives exactly the answer that its definition in the repository says.
 * Link with libtsaghnobir.a (x86-64 Linux). It is compiled for processors of the level x86-64-v2 and newer, which have
 * SSE4.2, and does not ask whether the one that it runs on is such. No function allocates, keeps anything, prints or calls
 * back, so any number of threads may call them at once.
 *
 * A CURVE is four things, handed over in this order by every call that takes one:
 *
 *   degree          1, 2 or 3
 *   knots           t_0, t_1, .., numbers from 0 to 16383 that never fall; one for each point and degree + 1
 *                   more. With m for the degree and n + 1 points, t_m is below t_{n+1}; a value strictly
 *                   between these two stands at most m times among all knots, any other at most m + 1 times
 *   xs, ys          the coordinates of the control points, as many x as y: at least degree + 1 points and
 *                   at most 1024. Each coordinate lies from -262144 to 262144
 *
 * The curve is defined on its DOMAIN, the parameters from t_m = knots[degree] to t_{n+1} = knots[xs_len], both included.
 * Its left end is clamped where the first degree + 1 knots are equal, and the curve then begins at its first control
 * point; its right end where the last degree + 1 are, and the curve ends at its last one. An end may as well be open: the
 * knots and points beyond it shape the curve inside the domain and no further. Only values strictly inside the domain are
 * inserted and removed. (A job's clamps have nothing to do with clamped ends: they are rectangles.)
 * No curve has to be checked beforehand: every call judges what it is given and refuses what is no curve.
 *
 * THE RESULT of every function is a refusal number: 0 (TSB_OK) if the call was carried out, else the number
 * of the reason, one of the TSB_.. values below. Where several reasons apply, the call names the one that it
 * judges first; the order stands with each call. A refused call has changed nothing that was lent to it, with
 * two exceptions: a reader that is given broken bytes tells where they break, through the pointer `place`; and
 * tsb_feed_end is done with the bytes that it refuses and sets their count to 0, but for a work list that is too short.
 * After success the first entries of each result list hold the result, the entries behind are as before,
 * and the single numbers lent by a pointer hold what is said with the call.
 *
 * BROKEN BYTES. A record is four fields: the degree, the knots, x and y, with the tags 1, 2, 3 and 4; in a job
 * the cutter's radius, of tag 6, and up to 64 clamps of tag 5 follow. A field is its tag in one byte, its length in
 * two, low byte first, and as many bytes of contents. The length is 1 for the degree, even and at most 2056 for the
 * knots, a multiple of 4 and at most 4096 for x and for y, 0 included for these three, 2 for the radius and 16 for a
 * clamp. A reader goes through the bytes from the first on and judges of each field its tag, then its length, then
 * its contents; it tells the first fault that it comes to:
 *
 *   TSB_ENDED       the bytes end too early                                     place: the number of bytes
 *   TSB_TAG         a field begins with another tag than the one due there      place: that of the tag
 *   TSB_LENGTH      both bytes of a length are there, and it is a wrong one     place: that of its first byte
 *   TSB_LEFT_OVER   a byte stands behind a lone record or a 64th clamp          place: that of the byte
 *
 * Places count from 0. So bytes that end between the two of a length are TSB_ENDED, whatever the first of them
 * is; a wrong length whose contents run out as well is TSB_LENGTH; and a byte other than 6 behind a job's record, or
 * other than 5 behind its radius or behind a clamp before the 64th, is TSB_TAG. `*place` is written by these four
 * refusals and by nothing else: on success and on every other refusal it is as before.
 *
 * WHAT THE CALLER OWES, because no proof can see it from inside:
 *   - a pointer is valid for as many entries as its length says and aligned for its type; a pointer to a
 *     single number is valid and aligned, and never null;
 *   - what is written through (a result list, a single number) overlaps neither an input list nor anything
 *     else that is written through, as `restrict` says. Two input lists may overlap;
 *   - nothing else reads or writes these places while the call runs;
 *   - a list of length 0 may be a null pointer; any other may not;
 *   - a length counts entries, not bytes, and a list is at most 2^63 - 1 bytes;
 *   - the stack reaches: under 304 bytes for most calls, under 480 for tsb_clamp_ends, under 11 KiB for tsb_remove,
 *     tsb_compact, both readers and tsb_feed_end, each of which holds a curve while it works, under 12 KiB for tsb_svg,
 *     which holds the copy that it clamps and cuts this a piece at a time, and takes as much for any curve.
 *     docs/BENCHMARKS.md has the bytes of each call.
 */
#ifndef TSAGHNOBIR_H
#define TSAGHNOBIR_H

#include <stddef.h>
#include <stdint.h>

/*
 * Raised whenever a call below changes: its parameters, what it does, or what it refuses.
 * Version 2: tsb_read_record and tsb_read_job have a last parameter `place` and split what was 16 for all broken
 * bytes into 16, 19, 20 and 21. A caller of version 1 lends a size_t, has no more TSB_BYTES (16 is TSB_ENDED) and
 * treats all four as it treated 16; which bytes are read, and what is read from them, has not changed.
 * Version 3: tsb_feed and tsb_feed_end, for a job that comes in bursts. Nothing else changed: a caller of version 2
 * has nothing to do.
 * Version 4: tsb_join leaves out the spline points where pieces meet. With k + 1 spline points it gives 2k + 2 points and
 * 2k + 6 knots, where it gave 3k + 1 and 3k + 5. The exact curve is the same, and so are the refusals, but that 15 asks for
 * fewer places: lists that were long enough still are. tsb_spans may list more spans of the shorter result, where the box
 * of a span reaches to points of its neighbours. A caller of version 3 who needs the meeting points among the control
 * points calls tsb_join_through_points, which is the old tsb_join under its new name; any other goes by *points, as before.
 * Version 5: the cutter has a radius. A caller of version 4 hands one to each call of tsb_spans, behind the four sides, where
 * 0 lists as before; lends a uint32_t for the job's to tsb_read_job and tsb_feed_end, behind `points`; and has work lists of
 * TSB_WORK_MOST = 11482 places, five more. A job has the field of tag 6 between its record and its clamps. Without it, it is
 * refused by 19, or by 16 where it ends there, so jobs made before have to be made again; records have not changed.
 * A radius above 4096 is refused by 22, which is new. The stack of tsb_spans is 264 bytes, where it was 232.
 * Version 6: tsb_svg, for a curve as path data of SVG, and TSB_SVG_MOST. Nothing else changed: a caller of version 5 has
 * nothing to do.
 * Version 7: ends need not be clamped. 5 refuses an empty domain alone, which begins at knots[degree] and ends at
 * knots[xs_len]; 6 lets an end of the domain and any value outside it stand degree + 1 times; 9 and 12 ask for a value
 * strictly inside the domain. Whatever passed before passes, with the same answers, and curves that were refused by 5 may
 * now pass: a caller of version 6 who counts on a first control point where the curve begins, say of a job that was read,
 * hands the curve to tsb_clamp_ends, which is new and gives a clamped curve back as it is. tsb_unclamp_right is new too,
 * and so is 23, which it alone gives. tsb_svg clamps a copy first, and gives 11 too where a point of this copy is not
 * whole; its stack is under 12 KiB, where it was under 1100 bytes. Most other calls take 32 bytes more of stack.
 */
#define TSB_API_VERSION 7

/* The limits, and places that are always enough for a result. */
#define TSB_POINTS_MOST 1024       /* points of a curve */
#define TSB_KNOTS_MOST 1028        /* knots of a curve */
#define TSB_KNOT_MOST 16383        /* value of a knot */
#define TSB_COORDINATE_MOST 262144 /* size of a coordinate, a tangent or a rectangle's side */
#define TSB_SPLINE_POINTS_MOST 342 /* spline points to join: to 684 points by tsb_join, 1024 by tsb_join_through_points */
#define TSB_RECORD_MOST 10261      /* bytes of a record */
#define TSB_JOB_MOST 11482         /* bytes of a job */
#define TSB_CLAMPS_MOST 64         /* clamps of a job */
#define TSB_RADIUS_MOST 4096       /* steps of a cutter's radius */
#define TSB_WORK_MOST TSB_JOB_MOST /* bytes of the longest job: places that tsb_feed asks of a work list, or more */
#define TSB_SVG_MOST 18431         /* bytes of the longest path data */

/* The refusal numbers. */
enum tsb_refusal {
    TSB_OK = 0,             /* not refused */
    TSB_DEGREE = 1,         /* the degree is not 1, 2 or 3 */
    TSB_POINT_COUNT = 2,    /* xs and ys differ in length, or hold fewer than degree + 1 or more than 1024 points */
    TSB_KNOT_COUNT = 3,     /* the number of knots is not that of the points + degree + 1 */
    TSB_KNOT_ORDER = 4,     /* a knot is above 16383 or below the knot before it */
    TSB_ENDS = 5,           /* the domain is empty: knots[degree] is not below knots[xs_len] */
    TSB_REPEATS = 6,        /* a value strictly inside the domain stands more than degree times among all knots, or any
                               other value, an end of the domain or one outside it, more than degree + 1 times */
    TSB_RANGE = 7,          /* a coordinate or a tangent lies beyond +-262144 */
    TSB_PARAMETER = 8,      /* the parameter lies outside the curve's domain */
    TSB_INSERTION = 9,      /* insertion: the value is not strictly inside the domain, or stands degree times already */
    TSB_FULL = 10,          /* insertion, path data: the curve to insert into has 1024 points already */
    TSB_NOT_WHOLE = 11,     /* inserting, joining, clamping, path data: a new coordinate would fall between two grid lines */
    TSB_NOT_INNER = 12,     /* removal: the value is no knot strictly inside the domain */
    TSB_NOT_REMOVABLE = 13, /* removal: no whole points within range give the old curve with the value inserted again */
    TSB_RECTANGLE = 14,     /* a rectangle's low side lies above its high side, or a side beyond +-262144 */
    TSB_ROOM = 15,          /* a result list has too few places, or a work list fewer than TSB_WORK_MOST */
    TSB_ENDED = 16,         /* reading: the bytes end early */
    TSB_SPLINE_POINTS = 17, /* joining: one spline point or none, more than 342, five lists that are not equally long, a
                               parameter above 16383 or one that is not above the parameter before it */
    TSB_JOINED_RANGE = 18,  /* joining: a control point would lie beyond +-262144 */
    TSB_TAG = 19,           /* reading: an unexpected tag */
    TSB_LENGTH = 20,        /* reading: a length that the field cannot have */
    TSB_LEFT_OVER = 21,     /* reading: a byte behind a lone record, or behind a job's 64th clamp */
    TSB_RADIUS = 22,        /* the cutter's radius is above 4096 */
    TSB_UNCLAMP = 23        /* unclamping: the last degree + 1 knots are not all equal, a new knot would lie above 16383, or
                               no whole points within range on the new knots give the same curve */
};

/* C++ and compilers before C99 lack the word; where the compiler has its own, it is used. */
#if defined(__cplusplus) || !defined(__STDC_VERSION__) || __STDC_VERSION__ < 199901L
#if defined(__GNUC__) || defined(__clang__) || defined(_MSC_VER)
#define TSB_RESTRICT __restrict
#else
#define TSB_RESTRICT
#endif
#else
#define TSB_RESTRICT restrict
#endif

#ifdef __cplusplus
extern "C" {
#endif

/*
 * Is this a curve? 0, or the lowest of 1 to 7 that applies.
 */
uint32_t tsb_check(
    uint32_t degree, const uint16_t *knots, size_t knots_len,
    const int32_t *xs, size_t xs_len, const int32_t *ys, size_t ys_len);

/*
 * The point of the curve at the parameter t, a whole number of the domain, goes to *x and *y. It is worked
 * out by de Boor's triangle in IEEE 754 binary64 with a fixed order of operations, so the bits are the same
 * everywhere, and each coordinate is within 2^-30 of the exact one.
 * Refused by 1 to 7, then 8.
 */
uint32_t tsb_point(
    uint32_t degree, const uint16_t *knots, size_t knots_len,
    const int32_t *xs, size_t xs_len, const int32_t *ys, size_t ys_len,
    uint32_t t, double *TSB_RESTRICT x, double *TSB_RESTRICT y);

/*
 * Which control points carry the curve at t: the entries *first to *first + degree of xs and ys, and no
 * others. The exact point at t lies in their convex hull; the one that tsb_point computes may be off it by
 * the rounding that is named there.
 * Refused by 1 to 7, then 8.
 */
uint32_t tsb_carrying(
    uint32_t degree, const uint16_t *knots, size_t knots_len,
    const int32_t *xs, size_t xs_len, const int32_t *ys, size_t ys_len,
    uint32_t t, size_t *TSB_RESTRICT first);

/*
 * The same curve with the knot v once more (Boehm's insertion): knots_len + 1 knots to out_knots, one point
 * more than before to out_xs and out_ys, and the new number of points to *points.
 * Refused by 1 to 7, then 9, 10, 11 (on either axis), then 15.
 */
uint32_t tsb_insert(
    uint32_t degree, const uint16_t *knots, size_t knots_len,
    const int32_t *xs, size_t xs_len, const int32_t *ys, size_t ys_len,
    uint32_t v,
    uint16_t *TSB_RESTRICT out_knots, size_t out_knots_len,
    int32_t *TSB_RESTRICT out_xs, size_t out_xs_len,
    int32_t *TSB_RESTRICT out_ys, size_t out_ys_len,
    size_t *TSB_RESTRICT points);

/*
 * The same curve with the knot v once less: knots_len - 1 knots to out_knots, one point fewer than before to
 * out_xs and out_ys, and the new number of points to *points. It is done exactly where some whole points within
 * range, on the remaining knots, give all the old points when v is inserted; those points are the result.
 * Refused by 1 to 7, then 12, then 13, then 15.
 */
uint32_t tsb_remove(
    uint32_t degree, const uint16_t *knots, size_t knots_len,
    const int32_t *xs, size_t xs_len, const int32_t *ys, size_t ys_len,
    uint32_t v,
    uint16_t *TSB_RESTRICT out_knots, size_t out_knots_len,
    int32_t *TSB_RESTRICT out_xs, size_t out_xs_len,
    int32_t *TSB_RESTRICT out_ys, size_t out_ys_len,
    size_t *TSB_RESTRICT points);

/*
 * The same curve with the knots gone that can be spared: the values strictly inside the domain, from left to right, each
 * removed, as by tsb_remove, as often as that is possible; one pass. The new number of points goes to *points and the
 * number of knots removed to *removed; there are *points + degree + 1 knots. Nothing to remove is no refusal: the curve
 * comes back as it is. The lists need places for the result alone.
 * Refused by 1 to 7, then 15.
 */
uint32_t tsb_compact(
    uint32_t degree, const uint16_t *knots, size_t knots_len,
    const int32_t *xs, size_t xs_len, const int32_t *ys, size_t ys_len,
    uint16_t *TSB_RESTRICT out_knots, size_t out_knots_len,
    int32_t *TSB_RESTRICT out_xs, size_t out_xs_len,
    int32_t *TSB_RESTRICT out_ys, size_t out_ys_len,
    size_t *TSB_RESTRICT points, size_t *TSB_RESTRICT removed);

/*
 * The same exact curve with both ends clamped: the knots strictly inside the domain stay as they are, each end of the
 * domain stands degree + 1 times, and no other knot is left. At an end that was open the outermost degree - 1 points are
 * new, weighted means of old ones and so within range. Points that carry no part of the domain are gone: there may be
 * fewer than before, never more. Their number goes to *points, and there are *points + degree + 1 knots. A curve whose
 * ends are clamped comes back as it is.
 * Refused by 1 to 7, then 11 (on either axis), then 15 by the places that the result needs.
 */
uint32_t tsb_clamp_ends(
    uint32_t degree, const uint16_t *knots, size_t knots_len,
    const int32_t *xs, size_t xs_len, const int32_t *ys, size_t ys_len,
    uint16_t *TSB_RESTRICT out_knots, size_t out_knots_len,
    int32_t *TSB_RESTRICT out_xs, size_t out_xs_len,
    int32_t *TSB_RESTRICT out_ys, size_t out_ys_len,
    size_t *TSB_RESTRICT points);

/*
 * The same exact curve, over the same domain, with its right end opened, for a curve whose right end is clamped: the degree
 * knots behind t_{n+1} become t_{n+1} + h, t_{n+1} + 2h and so on, with h = t_{n+1} - t_n, the width of the last span. All
 * points stay but the last degree - 1, so of degree 1 every one; there are as many knots and points as before, and *points
 * is xs_len. It is done exactly where some whole points within range, on the new knots and with all but the last degree
 * points as they were, have the same exact curve; those points are the result.
 * Refused by 1 to 7, then 23, then 15.
 */
uint32_t tsb_unclamp_right(
    uint32_t degree, const uint16_t *knots, size_t knots_len,
    const int32_t *xs, size_t xs_len, const int32_t *ys, size_t ys_len,
    uint16_t *TSB_RESTRICT out_knots, size_t out_knots_len,
    int32_t *TSB_RESTRICT out_xs, size_t out_xs_len,
    int32_t *TSB_RESTRICT out_ys, size_t out_ys_len,
    size_t *TSB_RESTRICT points);

/*
 * A curve of degree 3 through spline points: at the parameter params[i] it passes through (px[i], py[i]) with the tangent
 * (tx[i], ty[i]), in grid steps per unit of the parameter. With k + 1 spline points the result has 2k + 2 points, whose
 * number goes to *points, and 2k + 6 knots: the first and the last parameter four times each, so that its ends are
 * clamped, each parameter between twice. The points are the first spline point, two inner points of each piece, and the
 * last spline point; those where pieces meet are left out, though the curve passes through them. Take this call, unless
 * the meeting points are needed among the control points, as by a path planner: for that there is the next one.
 * Refused by 17, then 7, 11, 18, 15: in this order, each judged over all four points of every piece and both axes, so
 * also over those that are left out; 15 by the places that this result needs.
 */
uint32_t tsb_join(
    const uint16_t *params, size_t params_len,
    const int32_t *px, size_t px_len, const int32_t *py, size_t py_len,
    const int32_t *tx, size_t tx_len, const int32_t *ty, size_t ty_len,
    uint16_t *TSB_RESTRICT out_knots, size_t out_knots_len,
    int32_t *TSB_RESTRICT out_xs, size_t out_xs_len,
    int32_t *TSB_RESTRICT out_ys, size_t out_ys_len,
    size_t *TSB_RESTRICT points);

/*
 * The same exact curve with the meeting points among its control points, for a path planner: the entry 3i of out_xs and
 * out_ys is the spline point i. With k + 1 spline points the result has 3k + 1 points, whose number goes to *points, and
 * 3k + 5 knots: the first and the last parameter four times each, each one between three times. tsb_insert makes it from
 * the result of tsb_join, called once for each parameter between.
 * Refused by 17, then 7, 11, 18, 15: as by tsb_join, but for 15, which goes by the places that this result needs.
 */
uint32_t tsb_join_through_points(
    const uint16_t *params, size_t params_len,
    const int32_t *px, size_t px_len, const int32_t *py, size_t py_len,
    const int32_t *tx, size_t tx_len, const int32_t *ty, size_t ty_len,
    uint16_t *TSB_RESTRICT out_knots, size_t out_knots_len,
    int32_t *TSB_RESTRICT out_xs, size_t out_xs_len,
    int32_t *TSB_RESTRICT out_ys, size_t out_ys_len,
    size_t *TSB_RESTRICT points);

/*
 * Where a cutter that follows the curve may meet a clamp, the rectangle from low_x to high_x and from low_y to
 * high_y with its sides. The cutter's radius is in steps, at most TSB_RADIUS_MOST; 0 asks for the centre line
 * alone. Each of the four sides is moved outwards by the radius, and may then pass +-262144. A span is a part of
 * the domain between two different neighbouring knots; it is listed if the box of its carrying points meets the
 * rectangle so widened, a shared side or corner included. The lower knot of each goes to lows, the upper to highs,
 * in rising order, and their number to *count.
 * If some point of the clamp, in or on it, is at most the radius away from the exact point at a parameter, whole
 * or not, a listed span holds this parameter; a listed span need not come that near.
 * Both lists need a place for every span of the curve, listed or not: at most xs_len - degree.
 * Refused by 1 to 7, then 22, then 14 for the sides as they are handed over, then 15.
 */
uint32_t tsb_spans(
    uint32_t degree, const uint16_t *knots, size_t knots_len,
    const int32_t *xs, size_t xs_len, const int32_t *ys, size_t ys_len,
    int32_t low_x, int32_t high_x, int32_t low_y, int32_t high_y, uint32_t radius,
    uint16_t *TSB_RESTRICT lows, size_t lows_len,
    uint16_t *TSB_RESTRICT highs, size_t highs_len,
    size_t *TSB_RESTRICT count);

/*
 * The curve as a record, a string of bytes to keep or to send: the number of bytes goes to *length. Each curve
 * has exactly one record, of 13 + 2 * knots_len + 8 * xs_len bytes, at most TSB_RECORD_MOST.
 * Refused by 1 to 7, then 15.
 */
uint32_t tsb_write_record(
    uint32_t degree, const uint16_t *knots, size_t knots_len,
    const int32_t *xs, size_t xs_len, const int32_t *ys, size_t ys_len,
    uint8_t *TSB_RESTRICT out, size_t out_len,
    size_t *TSB_RESTRICT length);

/*
 * The curve as path data of SVG 2, the text that a drawing holds as the attribute d of a path: "M x y", the point at the
 * left end of the domain, and then for each piece, from left to right, a space and "L x y", "Q x y x y" or
 * "C x y x y x y", by degree 1, 2 or 3. One piece of degree 3 may give
 *
 *   M 0 0 C 0 8 8 8 8 0
 *
 * Numbers are whole, with a minus sign or none, and single spaces part them. They are grid steps, y upward, as in the
 * lists: a drawing, whose y runs downward, turns the path over, by transform="scale(1 -1)" say. The bytes go to the front
 * of `out`, without a newline or a zero byte at the end, and their number to *length; TSB_SVG_MOST places are always
 * enough.
 *
 * A piece lies between two different neighbouring knots of the domain, and as a Bezier curve it is exactly the curve
 * there. A copy of the curve is clamped at both ends first, as tsb_clamp_ends does it. Pieces come from inserting into the
 * copy the knots strictly inside the domain, from left to right, each until it stands degree times, as tsb_insert does it;
 * the caller's own curve is not changed. The time grows in proportion to the lists.
 * Refused by 1 to 7. Then by 11 where a coordinate of the clamped copy would not be whole. Then by the first insertion that
 * fails: by 10 where the copy has 1024 points by then, else by 11 where a new coordinate, on either axis, would not be
 * whole. Then 15.
 */
uint32_t tsb_svg(
    uint32_t degree, const uint16_t *knots, size_t knots_len,
    const int32_t *xs, size_t xs_len, const int32_t *ys, size_t ys_len,
    uint8_t *TSB_RESTRICT out, size_t out_len,
    size_t *TSB_RESTRICT length);

/*
 * The curve whose record the bytes are: its knots, x and y go to the three lists, its degree to *degree and
 * its number of points to *points; it has *points + *degree + 1 knots. What is read is a curve.
 * Refused by 16, 19, 20 or 21 where the bytes, first to last, are no record: the first fault, and where it stands
 * goes to *place. Then by 1 to 7, then 15; these leave *place as it is, and so does a success.
 */
uint32_t tsb_read_record(
    const uint8_t *bytes, size_t bytes_len,
    uint16_t *TSB_RESTRICT out_knots, size_t out_knots_len,
    int32_t *TSB_RESTRICT out_xs, size_t out_xs_len,
    int32_t *TSB_RESTRICT out_ys, size_t out_ys_len,
    uint32_t *TSB_RESTRICT degree, size_t *TSB_RESTRICT points, size_t *TSB_RESTRICT place);

/*
 * A job: a curve's record, behind it the cutter's radius, a number of 16 bits, low byte first, and behind this up to
 * 64 clamps, of which each is a rectangle to keep the cutter clear of. The curve goes where tsb_read_record puts it, the
 * radius to *radius; low x, high x, low y, high y of each clamp go to clamps as they are, not widened, and the number of
 * clamps to *clamp_count. clamps_len counts numbers, four for each clamp.
 * Refused by 16, 19, 20 or 21 where the bytes, first to last, are no job: the first fault, and where it stands goes
 * to *place. Then by 1 to 7, then 22, then 14 for any of the clamps, then 15; these leave *place as it is, and so does a
 * success.
 */
uint32_t tsb_read_job(
    const uint8_t *bytes, size_t bytes_len,
    uint16_t *TSB_RESTRICT out_knots, size_t out_knots_len,
    int32_t *TSB_RESTRICT out_xs, size_t out_xs_len,
    int32_t *TSB_RESTRICT out_ys, size_t out_ys_len,
    int32_t *TSB_RESTRICT clamps, size_t clamps_len,
    uint32_t *TSB_RESTRICT degree, size_t *TSB_RESTRICT points, uint32_t *TSB_RESTRICT radius,
    size_t *TSB_RESTRICT clamp_count, size_t *TSB_RESTRICT place);

/*
 * A job that comes in bursts, over a serial line say: feed each burst as it comes, and tell the end. All bursts
 * joined are then read as tsb_read_job reads them, however they were split; nothing is judged before that.
 *
 *   static uint8_t work[TSB_WORK_MOST], burst[64];
 *   size_t received = 0;
 *   int open = 1;
 *   while (open) {
 *       open = line_is_open();
 *       size_t count = receive(burst, sizeof burst);
 *       tsb_feed(burst, count, work, TSB_WORK_MOST, &received);
 *   }
 *   uint32_t refusal = tsb_feed_end(
 *       work, TSB_WORK_MOST, lists.., &degree, &points, &radius, &clamp_count, &place, &received);
 *
 * `*received` is all that is kept between the calls, beside the work list: 0 before the first burst, and 0 again
 * after an end, so that the next job may follow on the same list. The caller hands both on as they are.
 *
 * tsb_feed keeps the burst in the work list behind the bytes received so far, as far as it fits, and adds its length
 * to *received. An empty burst changes nothing. Input longer than the work list is no refusal yet: what does not fit
 * is dropped, and *received stops at work_len + 1, or where it was if that is higher, so it never wraps. All other
 * places of the work list are as before.
 * Refused by 15 where the work list has fewer than TSB_WORK_MOST places; then nothing has changed.
 */
uint32_t tsb_feed(
    const uint8_t *burst, size_t burst_len,
    uint8_t *TSB_RESTRICT work, size_t work_len,
    size_t *TSB_RESTRICT received);

/*
 * The end of such a job: gives what tsb_read_job gives for all bytes fed since *received was 0, number, lists, single
 * numbers and place, and sets *received to 0, whether the job was refused or not. Input longer than the longest job is
 * refused as the whole of it would be: its first TSB_JOB_MOST bytes and that there are more tell the fault.
 * Refused at once by 15 where the work list has fewer than TSB_WORK_MOST places; this alone leaves *received as it is.
 * Then as by tsb_read_job. Any value of *received is taken: one beyond work_len says that more bytes came than the
 * list holds.
 */
uint32_t tsb_feed_end(
    const uint8_t *work, size_t work_len,
    uint16_t *TSB_RESTRICT out_knots, size_t out_knots_len,
    int32_t *TSB_RESTRICT out_xs, size_t out_xs_len,
    int32_t *TSB_RESTRICT out_ys, size_t out_ys_len,
    int32_t *TSB_RESTRICT clamps, size_t clamps_len,
    uint32_t *TSB_RESTRICT degree, size_t *TSB_RESTRICT points, uint32_t *TSB_RESTRICT radius,
    size_t *TSB_RESTRICT clamp_count, size_t *TSB_RESTRICT place, size_t *TSB_RESTRICT received);

#ifdef __cplusplus
}
#endif

#endif
