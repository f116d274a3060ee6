/*
 * How deep each export really goes: its name and the bytes of stack that one call has written, its return address included.
 *
 * Each call is made from a place well below ours, on stack that was painted before. Two instructions in front of the export keep its stack pointer; what
 * has lost its paint below it, the export has written. Curves of 4 to 1,024 points; whether a call refuses does not matter.
 */
#include <stddef.h>
#include <stdint.h>
#include <stdio.h>

#include "tsaghnobir.h"

#define PAINTED (1u << 17)
#define PAINT 0xa5
#define POINTS TSB_POINTS_MOST
#define KNOTS TSB_KNOTS_MOST
#define JOINED TSB_SPLINE_POINTS_MOST

unsigned char *seen_from;

/* seen_NAME keeps the stack pointer and goes on as NAME. */
#define SEEN(name)                                                                                                                  \
    __asm__(".text\n.type seen_" #name ",@function\nseen_" #name ":\n    movq %rsp, seen_from(%rip)\n    jmp " #name "\n"); \
    __typeof__(name) seen_##name;

/* memcpy and memset that take no stack but their return address: what a C library's own take is none of the exports'. */
__asm__(".text\n.globl memcpy\n.type memcpy,@function\nmemcpy:\n    movq %rdi, %rax\n    movq %rdx, %rcx\n    rep movsb\n    retq\n");
__asm__(".text\n.globl memset\n.type memset,@function\nmemset:\n    movq %rdi, %r9\n    movl %esi, %eax\n    movq %rdx, %rcx\n    rep stosb\n    movq %r9, %rax\n    retq\n");

SEEN(tsb_check)
SEEN(tsb_point)
SEEN(tsb_carrying)
SEEN(tsb_insert)
SEEN(tsb_remove)
SEEN(tsb_compact)
SEEN(tsb_clamp_ends)
SEEN(tsb_unclamp_right)
SEEN(tsb_join)
SEEN(tsb_join_through_points)
SEEN(tsb_spans)
SEEN(tsb_write_record)
SEEN(tsb_svg)
SEEN(tsb_read_record)
SEEN(tsb_read_job)
SEEN(tsb_feed)
SEEN(tsb_feed_end)

/* a cubic on a straight line with simple inner knots, which can be cut into pieces, the same with open ends, its record and job and places for results */
static uint16_t knots[KNOTS], open_knots[KNOTS], out_knots[KNOTS], lows[POINTS], highs[POINTS];
static int32_t xs[POINTS], ys[POINTS], out_xs[POINTS], out_ys[POINTS], clamps[TSB_CLAMPS_MOST * 4], tangents[JOINED];
static uint8_t bytes[TSB_WORK_MOST], work[TSB_WORK_MOST], path[TSB_SVG_MOST];
static size_t points, removed, length, path_length, place, clamp_count, received, first, count;
static uint32_t degree, radius;
static double x, y;
static size_t number_of_points;
static const uint8_t radius_field[] = {6, 2, 0, 150, 0};

#define CURVE 3, knots, number_of_points + 4, xs, number_of_points, ys, number_of_points
#define OPEN_CURVE 3, open_knots, number_of_points + 4, xs, number_of_points, ys, number_of_points
#define OUT out_knots, KNOTS, out_xs, POINTS, out_ys, POINTS
#define JOB OUT, clamps, TSB_CLAMPS_MOST * 4, &degree, &points, &radius, &clamp_count, &place
#define SPLINE knots + 3, JOINED, xs, JOINED, ys, JOINED, tangents, JOINED, tangents, JOINED

static uint32_t check(void) { return seen_tsb_check(CURVE); }
static uint32_t point(void) { return seen_tsb_point(CURVE, 1, &x, &y); }
static uint32_t carrying(void) { return seen_tsb_carrying(CURVE, 1, &first); }
static uint32_t insert(void) { return seen_tsb_insert(CURVE, 3, OUT, &points); }
static uint32_t remove_one(void) { return seen_tsb_remove(CURVE, 6, OUT, &points); }
static uint32_t compact(void) { return seen_tsb_compact(CURVE, OUT, &points, &removed); }
static uint32_t clamp_ends(void) { return seen_tsb_clamp_ends(OPEN_CURVE, OUT, &points); }
static uint32_t unclamp_right(void) { return seen_tsb_unclamp_right(CURVE, OUT, &points); }
static uint32_t spans(void) { return seen_tsb_spans(CURVE, -9, 9000, -9, 9000, 150, lows, POINTS, highs, POINTS, &count); }
static uint32_t write_record(void) { return seen_tsb_write_record(CURVE, bytes, sizeof bytes, &length); }
static uint32_t svg(void) { return seen_tsb_svg(CURVE, path, sizeof path, &path_length); }
static uint32_t open_svg(void) { return seen_tsb_svg(OPEN_CURVE, path, sizeof path, &path_length); }
static uint32_t read_record(void) { return seen_tsb_read_record(bytes, length, OUT, &degree, &points, &place); }
static uint32_t read_job(void) { return seen_tsb_read_job(bytes, length + sizeof radius_field, JOB); }
static uint32_t feed(void) { return seen_tsb_feed(bytes, length + sizeof radius_field, work, sizeof work, &received); }
static uint32_t feed_end(void) { return seen_tsb_feed_end(work, sizeof work, JOB, &received); }
static uint32_t join(void) { return seen_tsb_join(SPLINE, OUT, &points); }
static uint32_t join_through_points(void) { return seen_tsb_join_through_points(SPLINE, OUT, &points); }

/* Paints what lies below us, but for what this function itself may use. */
static __attribute__((noinline)) void paint(void)
{
    volatile unsigned char *here = __builtin_frame_address(0);
    for (size_t k = 512; k < PAINTED; k++)
        *(here - k) = PAINT;
}

/* Makes a call from below all that was in use when the stack was painted. */
static __attribute__((noinline)) void from_below(uint32_t (*call)(void))
{
    unsigned char deep[2048];
    __asm__ volatile("" : : "r"(deep) : "memory");
    call();
    __asm__ volatile("" : : "r"(deep) : "memory");
}

/* How far below its caller the last call has written. */
static __attribute__((noinline)) size_t depth(void)
{
    volatile unsigned char *here = __builtin_frame_address(0), *lowest = here - PAINTED + 64;
    while (*lowest == PAINT)
        lowest++;
    return (size_t)(seen_from + sizeof(void *) - lowest);
}

static void seen(const char *name, uint32_t (*call)(void))
{
    paint();
    from_below(call);
    printf("%s %zu\n", name, depth());
}

static void make_curve(size_t many)
{
    number_of_points = many;
    for (size_t j = 0; j < many; j++)
        xs[j] = ys[j] = (int32_t)(12 * j);
    for (size_t j = 0; j < many + 4; j++) {
        knots[j] = (uint16_t)(j <= 3 ? 0 : j >= many ? 6 * (many - 3) : 6 * (j - 3));
        open_knots[j] = (uint16_t)(6 * j);
    }
}

/* A radius behind the record that was written: a job without clamps. The record alone would be refused before the reader goes deep. */
static void make_job(void)
{
    for (size_t k = 0; k < sizeof radius_field; k++)
        bytes[length + k] = radius_field[k];
}

int main(void)
{
    for (size_t many = 4; many <= POINTS; many *= 4) {
        make_curve(many);
        seen("tsb_check", check);
        seen("tsb_point", point);
        seen("tsb_carrying", carrying);
        seen("tsb_insert", insert);
        seen("tsb_remove", remove_one);
        seen("tsb_compact", compact);
        seen("tsb_clamp_ends", clamp_ends);
        seen("tsb_unclamp_right", unclamp_right);
        seen("tsb_spans", spans);
        seen("tsb_write_record", write_record);
        seen("tsb_svg", svg);
        seen("tsb_svg", open_svg);
        make_job();
        seen("tsb_read_record", read_record);
        seen("tsb_read_job", read_job);
        seen("tsb_feed", feed);
        seen("tsb_feed_end", feed_end);
    }
    seen("tsb_join", join);
    seen("tsb_join_through_points", join_through_points);
    return 0;
}
