/*
 * tsb_feed and tsb_feed_end, asked by the steps of a case: see feed.h.
 *
 * Between two calls all that a caller hands on is kept here, and every call is lent a copy of it between fresh guards, at another place where the lists
 * before it have other lengths: a library that remembered where a list stood would be told. Beside a burst the lists and numbers of a result are lent
 * too; it gets none of them and must change none.
 */
#include "feed.h"

#include <stdint.h>
#include <stdio.h>
#include <stdlib.h>
#include <string.h>

#include "bytes.h"
#include "calls.h"
#include "tsaghnobir.h"

#define MOST_KEPT (1u << 20)
#define MODULUS (((uint64_t)1 << 56) - 5)

struct kept {
    size_t count, width;
    unsigned char now[MOST_KEPT], before[MOST_KEPT]; /* before is what the call was lent, to compare with */
};

enum { KNOTS, XS, YS, CLAMPS, LISTS };

static const char *const names[LISTS] = {"out_knots", "out_xs", "out_ys", "clamps"};
static const size_t widths[LISTS] = {2, 4, 4, 4};

static struct kept work, lists[LISTS];
static size_t received;

static void keep(struct kept *list, size_t count, size_t width)
{
    if (count > MOST_KEPT / width) {
        fprintf(stderr, "the lists of a case are too long for the driver\n");
        exit(2);
    }
    list->count = count;
    list->width = width;
    fill_result(list->now, count, width);
}

static void take_state(void)
{
    size_t front_len;
    keep(&work, take_number(), 1);
    const unsigned char *front = take_entries(1, &front_len);
    memcpy(work.now, front, front_len < work.count ? front_len : work.count);
    received = (size_t)take_large();
    for (int k = 0; k < LISTS; k++)
        keep(&lists[k], take_number(), widths[k]);
}

static void *lend_list(int k, int open)
{
    return (open ? lend_open : lend_kept)(names[k], lists[k].before, lists[k].count, lists[k].width);
}

/* Before a call: what it finds. */
static void set_before(struct kept *list)
{
    memcpy(list->before, list->now, list->count * list->width);
}

/* After a call: what it has made of a list. */
static void take_over(struct kept *list, const void *lent)
{
    if (list->count != 0)
        memcpy(list->now, lent, list->count * list->width);
}

/* A burst may write the places behind what was received, as many as it has bytes; none where the list is too short. */
static void *lend_work(size_t burst_len)
{
    size_t taken = work.count < TSB_WORK_MOST ? work.count : received < work.count ? received : work.count;
    size_t room = work.count - taken;
    return lend_part("work", work.before, work.count, 1, taken, taken + (burst_len < room ? burst_len : room));
}

static void burst(void)
{
    size_t burst_len;
    const unsigned char *entries = take_entries(1, &burst_len);
    const uint8_t *lent_burst = lend_input("burst", entries, burst_len, 1);
    uint8_t *lent_work = lend_work(burst_len);
    size_t *count = lend_open("received", &received, 1, sizeof received);
    for (int k = 0; k < LISTS; k++)
        lend_list(k, 0);
    lend_number("degree", sizeof(uint32_t));
    lend_number("points", sizeof(size_t));
    lend_number("radius", sizeof(uint32_t));
    lend_number("clamp_count", sizeof(size_t));
    lend_place("place");
    put_number(tsb_feed(lent_burst, burst_len, lent_work, work.count, count));
    put_large(*count);
    take_over(&work, lent_work);
    received = *count;
}

static uint32_t end(void)
{
    const uint8_t *lent_work = lend_input("work", work.before, work.count, 1);
    void *lent[LISTS];
    for (int k = 0; k < LISTS; k++)
        lent[k] = lend_list(k, 1);
    uint32_t *degree = lend_number("degree", sizeof *degree), *radius = lend_number("radius", sizeof *radius);
    size_t *points = lend_number("points", sizeof *points), *clamp_count = lend_number("clamp_count", sizeof *clamp_count);
    size_t *place = lend_place("place"), *count = lend_open("received", &received, 1, sizeof received);
    uint32_t refusal = tsb_feed_end(
        lent_work, work.count, lent[KNOTS], lists[KNOTS].count, lent[XS], lists[XS].count, lent[YS], lists[YS].count,
        lent[CLAMPS], lists[CLAMPS].count, degree, points, radius, clamp_count, place, count);
    put_number(refusal);
    put_large(*count);
    if (refusal == TSB_OK) {
        put_number(*degree);
        put_count(*points);
        put_number(*radius);
        put_count(*clamp_count);
    }
    if (has_place(refusal))
        put_count(*place);
    for (int k = 0; k < LISTS; k++) {
        put_entries(lent[k], lists[k].count, widths[k]);
        take_over(&lists[k], lent[k]);
    }
    received = *count;
    return refusal;
}

/* What is left of the work list, read as one number low byte first, on division by MODULUS. */
static uint64_t fingerprint(void)
{
    uint64_t left = 0;
    for (size_t k = work.count; k-- != 0;)
        left = (left << 8 | work.now[k]) % MODULUS;
    return left;
}

int feed_step(size_t step, enum ending *ending)
{
    if (step == 0)
        take_state();
    set_before(&work);
    for (int k = 0; k < LISTS; k++)
        set_before(&lists[k]);
    if (take_byte() == 0) {
        *ending = ending_of(end());
    } else {
        burst();
        *ending = REFUSED; /* whatever it answers: none of the numbers that are lent beside it may change */
    }
    if (case_goes_on())
        return 1;
    put_large(fingerprint());
    return 0;
}
