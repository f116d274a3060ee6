/* Feeding a job in bursts, and its end, written plainly. */
#include "plain.h"
#include "tsaghnobir.h"

uint32_t plain_feed(
    const uint8_t *burst, size_t burst_len, uint8_t *restrict work, size_t work_len, size_t *restrict received)
{
    if (work_len < TSB_WORK_MOST)
        return TSB_ROOM;
    size_t at = *received;
    if (at > work_len)
        return TSB_OK;
    size_t room = work_len - at;
    size_t count = burst_len < room ? burst_len : room;
    for (size_t i = 0; i < count; i++)
        work[at + i] = burst[i];
    *received = burst_len <= room ? at + burst_len : work_len + 1;
    return TSB_OK;
}

/* Of bytes that did not fit, one counts: it stands behind the longest job, so the reader tells that it is there and never looks at it. */
uint32_t plain_feed_end(const uint8_t *work, size_t work_len, JOB, size_t *restrict received)
{
    if (work_len < TSB_WORK_MOST)
        return TSB_ROOM;
    size_t length = *received <= work_len ? *received : work_len + 1;
    *received = 0;
    return plain_read_job(
        work, length, out_knots, out_knots_len, out_xs, out_xs_len, out_ys, out_ys_len, clamps, clamps_len, degree, points,
        radius, clamp_count, place);
}
