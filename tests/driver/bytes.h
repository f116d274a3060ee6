/* The bytes of a case and those of its answer, laid out as tests/second_program/vectors.py and fed_vectors.py say, low byte first. */
#ifndef BYTES_H
#define BYTES_H

#include <stddef.h>
#include <stdint.h>

void begin_case(const unsigned char *body, size_t length);
unsigned char take_byte(void);
uint32_t take_number(void);
uint64_t take_large(void);

/* The entries of a list, of this many bytes each; their number goes to *count. */
const unsigned char *take_entries(size_t width, size_t *count);

/* Whether bytes of the case are left, and none were missing so far. */
int case_goes_on(void);

/* Whether the case had all the bytes that were taken, and no others. */
int case_is_whole(void);

void begin_answer(void);
void put_number(uint32_t number);
void put_large(uint64_t number);

/* A count or a place has 8 bytes in memory and 4 in the answer. */
void put_count(size_t count);

/* Whether every count did fit. */
int counts_fit(void);

void put_entries(const void *entries, size_t count, size_t width);

/* The answer so far; its length goes to *length. */
const unsigned char *answer_so_far(size_t *length);

#endif
