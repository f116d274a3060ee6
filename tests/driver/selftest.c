/* Tries the guards: an entry written past either end of a list, into an input, into a part where it may not be written, on a refusal into a number, or into
   a place where none is told must be told; no other write. */
#include "selftest.h"

#include <stdint.h>
#include <stdio.h>
#include <string.h>

#include "lent.h"

enum { INPUT, RESULT, NUMBER, BYTES, PLACE, PART, LISTS };

static const char *const names[LISTS] = {"input", "result", "number", "bytes", "place", "part"};
static const long counts[LISTS] = {3, 3, 1, 3, 1, 5};
static const size_t widths[LISTS] = {2, 4, 8, 1, 8, 2};
static const long part_from = 1, part_until = 3;

static int failed;

/* Lends a list or number of each kind, writes one entry, every byte of it the same, and hands back the name of the list that is told of. */
static const char *told_of(enum filling filling, int list, long entry, int byte, enum ending ending)
{
    static const uint16_t input[3] = {301, 302, 303}, part[5] = {401, 402, 403, 404, 405};
    unsigned char *start[LISTS];
    const char *name;
    begin_lending(filling);
    start[INPUT] = (unsigned char *)lend_input(names[INPUT], input, 3, 2);
    start[RESULT] = lend_result(names[RESULT], 3, 4);
    start[NUMBER] = lend_number(names[NUMBER], 8);
    start[BYTES] = lend_result(names[BYTES], 3, 1);
    start[PLACE] = (unsigned char *)lend_place(names[PLACE]);
    start[PART] = lend_part(names[PART], part, 5, 2, (size_t)part_from, (size_t)part_until);
    memset(start[list] + entry * (long)widths[list], byte, widths[list]);
    return what_is_wrong(ending, &name) ? name : NULL;
}

static void expect(int told, const char *what, int list, int byte)
{
    if (!told && !failed++)
        printf("selftest: %s of %s by bytes %d\n", what, names[list], byte);
}

static int same(const char *told, const char *name)
{
    return told != NULL && strcmp(told, name) == 0;
}

/* A stray byte may happen to be the guard's own in one filling, never in both. */
static int told_in_one(int list, long entry, int byte, const char *name)
{
    return same(told_of(FIRST, list, entry, byte, DONE), name) || same(told_of(SECOND, list, entry, byte, DONE), name);
}

/* Writes inside what is lent: into an input never, into a part between its bounds, into a number on success alone, into a place on a refusal that tells
   one alone. */
static void try_writes(enum filling filling)
{
    for (enum ending ending = DONE; ending <= REFUSED_AT; ending++) {
        expect(same(told_of(filling, INPUT, 2, 9, ending), names[INPUT]), "not told: a changed entry", INPUT, 9);
        if (ending == DONE)
            expect(told_of(filling, NUMBER, 0, 9, ending) == NULL, "told: a change on a success", NUMBER, 9);
        else
            expect(same(told_of(filling, NUMBER, 0, 9, ending), names[NUMBER]), "not told: a change on a refusal", NUMBER, 9);
        if (ending == REFUSED_AT)
            expect(told_of(filling, PLACE, 0, 9, ending) == NULL, "told: a place where one is due", PLACE, 9);
        else
            expect(same(told_of(filling, PLACE, 0, 9, ending), names[PLACE]), "not told: a place where none is due", PLACE, 9);
        for (long entry = 0; entry < 3; entry++) {
            expect(told_of(filling, RESULT, entry, 9, ending) == NULL, "told: an entry", RESULT, 9);
            expect(told_of(filling, BYTES, entry, 9, ending) == NULL, "told: an entry", BYTES, 9);
        }
        for (long entry = 0; entry < counts[PART]; entry++)
            if (part_from <= entry && entry < part_until)
                expect(told_of(filling, PART, entry, 9, ending) == NULL, "told: an entry between the bounds", PART, 9);
            else
                expect(same(told_of(filling, PART, entry, 9, ending), names[PART]), "not told: an entry beyond the bounds", PART, 9);
    }
}

int selftest(void)
{
    for (int list = 0; list < LISTS; list++)
        for (int byte = 0; byte < 256; byte++) {
            const char *before = list == 0 ? "the first list" : names[list - 1];
            expect(told_in_one(list, counts[list], byte, names[list]), "not told: an entry behind the end", list, byte);
            expect(told_in_one(list, -1, byte, before), "not told: an entry before the start", list, byte);
        }
    for (enum filling filling = FIRST; filling <= SECOND; filling++)
        try_writes(filling);
    if (!failed)
        printf("the guards tell what they should\n");
    return failed != 0;
}
