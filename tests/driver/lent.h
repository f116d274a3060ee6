/*
 * Lists and numbers lent to a call. Each stands between guard bytes, flush with them at both ends; after the call the guards, the inputs
 * and, where the call was refused, the single numbers must be as they were. A number lent for a place is the other way round: it must be as it
 * was unless the call was refused with a place.
 */
#ifndef LENT_H
#define LENT_H

#include <stddef.h>

/* How the guards are filled. The two fillings differ in every byte, so that no stray write hides in both. In the first every list has a place of its
   own; in the second an empty list is lent as a null pointer, and two inputs with the same bytes are lent as one. */
enum filling { FIRST, SECOND };

void begin_lending(enum filling filling);

/* A list that the call may only read: a copy of the entries. */
const void *lend_input(const char *name, const void *entries, size_t count, size_t width);

/* A list that the call may write from one entry until another and has to leave as it is elsewhere: a copy of the entries. */
void *lend_part(const char *name, const void *entries, size_t count, size_t width, size_t from, size_t until);

/* The same with no entry, and with every entry, that may be written. */
void *lend_kept(const char *name, const void *entries, size_t count, size_t width);
void *lend_open(const char *name, const void *entries, size_t count, size_t width);

/* A list for a result, filled as tests/second_program/vectors.py says for entries of this width: u8, u16 or i32. */
void *lend_result(const char *name, size_t count, size_t width);

/* What it is filled with. */
void fill_result(void *entries, size_t count, size_t width);

/* A place for a single number, aligned for it. */
void *lend_number(const char *name, size_t width);

/* The number that a refusal of broken bytes, and nothing else, writes: the place of the fault. */
size_t *lend_place(const char *name);

/* How a call ended: carried out, refused, or refused with a place. A call that is lent no single number, beside which some are kept, ends like one that
   is refused. */
enum ending { DONE, REFUSED, REFUSED_AT };

/* What is wrong after the call, and the name of the list that it is told of; NULL where all is well. */
const char *what_is_wrong(enum ending ending, const char **name);

/* Spoils the byte behind one of the lists, to try whether that is told. */
void spoil_guard(size_t which);

#endif
