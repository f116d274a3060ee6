/* The bytes of a case and of its answer: see bytes.h. */
#include "bytes.h"

#include <stdio.h>
#include <stdlib.h>
#include <string.h>

#define MOST_ANSWER (4u << 20)

static const unsigned char *body;
static size_t left;
static int cut_short;
static unsigned char answer[MOST_ANSWER];
static size_t answered;
static int too_large;

void begin_case(const unsigned char *bytes, size_t length)
{
    body = bytes;
    left = length;
    cut_short = 0;
}

/* The next bytes, or some zeros where there are not as many. */
static const unsigned char *take(size_t size)
{
    static const unsigned char zeros[4];
    if (size > left) {
        cut_short = 1;
        return zeros;
    }
    const unsigned char *taken = body;
    body += size;
    left -= size;
    return taken;
}

unsigned char take_byte(void)
{
    return *take(1);
}

uint32_t take_number(void)
{
    const unsigned char *b = take(4);
    return b[0] | (uint32_t)b[1] << 8 | (uint32_t)b[2] << 16 | (uint32_t)b[3] << 24;
}

uint64_t take_large(void)
{
    uint64_t low = take_number();
    return low | (uint64_t)take_number() << 32;
}

const unsigned char *take_entries(size_t width, size_t *count)
{
    *count = take_number();
    if (*count > left / width) {
        cut_short = 1;
        *count = 0;
    }
    return take(*count * width);
}

int case_goes_on(void)
{
    return !cut_short && left != 0;
}

int case_is_whole(void)
{
    return !cut_short && left == 0;
}

void begin_answer(void)
{
    answered = 0;
    too_large = 0;
}

void put_entries(const void *entries, size_t count, size_t width)
{
    if (count > (MOST_ANSWER - answered) / width) {
        fprintf(stderr, "an answer is too long for the driver\n");
        exit(2);
    }
    if (count != 0)
        memcpy(answer + answered, entries, count * width);
    answered += count * width;
}

void put_number(uint32_t number)
{
    put_entries(&number, 1, sizeof number);
}

void put_large(uint64_t number)
{
    put_entries(&number, 1, sizeof number);
}

void put_count(size_t count)
{
    too_large |= count > UINT32_MAX;
    put_number((uint32_t)count);
}

int counts_fit(void)
{
    return !too_large;
}

const unsigned char *answer_so_far(size_t *length)
{
    *length = answered;
    return answer;
}
