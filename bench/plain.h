/* The same calls as tsaghnobir.h, with the same checks, written plainly in C and proved by nobody: what the proved library is timed against. */
#ifndef PLAIN_H
#define PLAIN_H

#include <stddef.h>
#include <stdint.h>

#define CURVE \
    uint32_t degree, const uint16_t *knots, size_t knots_len, const int32_t *xs, size_t xs_len, const int32_t *ys, size_t ys_len
#define SPLINE_POINTS                                                                                              \
    const uint16_t *params, size_t params_len, const int32_t *px, size_t px_len, const int32_t *py, size_t py_len, \
        const int32_t *tx, size_t tx_len, const int32_t *ty, size_t ty_len
#define LISTS \
    uint16_t *restrict out_knots, size_t out_knots_len, int32_t *restrict out_xs, size_t out_xs_len, int32_t *restrict out_ys, size_t out_ys_len
#define JOB                                                                                                  \
    LISTS, int32_t *restrict clamps, size_t clamps_len, uint32_t *restrict degree, size_t *restrict points, \
        uint32_t *restrict radius, size_t *restrict clamp_count, size_t *restrict place

uint32_t plain_check(CURVE);
uint32_t plain_point(CURVE, uint32_t t, double *restrict x, double *restrict y);
uint32_t plain_carrying(CURVE, uint32_t t, size_t *restrict first);
uint32_t plain_insert(CURVE, uint32_t v, LISTS, size_t *restrict points);
uint32_t plain_compact(CURVE, LISTS, size_t *restrict points, size_t *restrict removed);
uint32_t plain_clamp_ends(CURVE, LISTS, size_t *restrict points);
uint32_t plain_unclamp_right(CURVE, LISTS, size_t *restrict points);
uint32_t plain_join(SPLINE_POINTS, LISTS, size_t *restrict points);
uint32_t plain_join_through_points(SPLINE_POINTS, LISTS, size_t *restrict points);
uint32_t plain_spans(
    CURVE, int32_t low_x, int32_t high_x, int32_t low_y, int32_t high_y, uint32_t radius,
    uint16_t *restrict lows, size_t lows_len, uint16_t *restrict highs, size_t highs_len, size_t *restrict count);
uint32_t plain_write_record(CURVE, uint8_t *restrict out, size_t out_len, size_t *restrict length);
uint32_t plain_svg(CURVE, uint8_t *restrict out, size_t out_len, size_t *restrict length);
uint32_t plain_read_record(
    const uint8_t *bytes, size_t bytes_len, LISTS, uint32_t *restrict degree, size_t *restrict points, size_t *restrict place);
uint32_t plain_read_job(const uint8_t *bytes, size_t bytes_len, JOB);
uint32_t plain_feed(
    const uint8_t *burst, size_t burst_len, uint8_t *restrict work, size_t work_len, size_t *restrict received);
uint32_t plain_feed_end(const uint8_t *work, size_t work_len, JOB, size_t *restrict received);

/* The largest span from m on that begins at or before t and is not empty. */
size_t plain_span(const uint16_t *knots, size_t m, size_t points, uint32_t t);

/* Clamping of a curve that has passed the check. */
uint32_t plain_clamp_checked(CURVE, LISTS, size_t *restrict points);

#endif
