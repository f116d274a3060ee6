/* Lists and numbers between guard bytes: see lent.h. */
#include "lent.h"

#include <stdint.h>
#include <stdio.h>
#include <stdlib.h>
#include <string.h>

#define GUARD 256            /* bytes before the first list, between two and behind the last; more where the next needs it to be aligned */
#define ALIGNED 8            /* enough for every type that is lent */
#define ARENA (4u << 20)
#define MOST_LENT 16

enum kind { INPUT, PART, RESULT, NUMBER, PLACE };

struct lent {
    const char *name;
    enum kind kind;
    size_t at, size;
    const unsigned char *before; /* what an input or a part held */
    size_t from, until;          /* where a part may be written */
};

static unsigned char *arena;
static unsigned char *guards[2]; /* by filling: what a guard holds at each place of the arena, worked out once, for every call fills and reads many */
static size_t used;
static enum filling filling;
static struct lent lists[MOST_LENT];
static size_t lent_count;

static unsigned char *memory(void)
{
    unsigned char *some = malloc(ARENA);
    if (some == NULL) {
        fprintf(stderr, "there is no memory for the lists\n");
        exit(2);
    }
    return some;
}

static unsigned char *guards_of(enum filling chosen)
{
    unsigned char *guard = memory();
    for (size_t place = 0; place < ARENA; place++)
        guard[place] = (unsigned char)((chosen == FIRST ? 0x00 : 0xFF) ^ (place * 29 + place / 256));
    return guard;
}

static unsigned char number_before(size_t k)
{
    return (unsigned char)(0xB7 - 11 * k);
}

static void fill_guard(size_t from, size_t until)
{
    memcpy(arena + from, guards[filling] + from, until - from);
}

static int guard_holds(size_t from, size_t until)
{
    return memcmp(arena + from, guards[filling] + from, until - from) == 0;
}

void begin_lending(enum filling chosen)
{
    if (arena == NULL)
        arena = memory();
    if (guards[chosen] == NULL)
        guards[chosen] = guards_of(chosen);
    filling = chosen;
    lent_count = 0;
    used = GUARD;
    fill_guard(0, GUARD);
}

/* The guard behind a list: it begins where the list ends, and ends where the next one may begin. */
static size_t guard_end(const struct lent *list)
{
    return (list->at + list->size + GUARD + ALIGNED - 1) / ALIGNED * ALIGNED;
}

static struct lent *lend(const char *name, enum kind kind, size_t count, size_t width)
{
    size_t beside = used + GUARD + ALIGNED;
    if (lent_count == MOST_LENT || beside > ARENA || count > (ARENA - beside) / width) {
        fprintf(stderr, "the lists of a case are too long for the driver\n");
        exit(2);
    }
    struct lent *list = &lists[lent_count++];
    list->name = name;
    list->kind = kind;
    list->at = used;
    list->size = count * width;
    list->before = NULL;
    list->from = list->until = 0;
    used = guard_end(list);
    fill_guard(list->at + list->size, used);
    return list;
}

static void *place_of(const struct lent *list)
{
    return list->size == 0 && filling == SECOND ? NULL : arena + list->at;
}

/* An input that is lent already and holds these bytes, or NULL. */
static const struct lent *same_input(const void *entries, size_t size)
{
    for (size_t i = 0; i < lent_count; i++)
        if (lists[i].kind == INPUT && lists[i].size == size && size != 0 && memcmp(lists[i].before, entries, size) == 0)
            return &lists[i];
    return NULL;
}

const void *lend_input(const char *name, const void *entries, size_t count, size_t width)
{
    const struct lent *same = same_input(entries, count * width);
    if (same != NULL && filling == SECOND)
        return place_of(same);
    struct lent *list = lend(name, INPUT, count, width);
    list->before = entries;
    if (list->size != 0)
        memcpy(arena + list->at, entries, list->size);
    return place_of(list);
}

void *lend_part(const char *name, const void *entries, size_t count, size_t width, size_t from, size_t until)
{
    struct lent *list = lend(name, PART, count, width);
    list->before = entries;
    list->from = from * width;
    list->until = until * width;
    if (list->size != 0)
        memcpy(arena + list->at, entries, list->size);
    return place_of(list);
}

void *lend_kept(const char *name, const void *entries, size_t count, size_t width)
{
    return lend_part(name, entries, count, width, 0, 0);
}

void *lend_open(const char *name, const void *entries, size_t count, size_t width)
{
    return lend_part(name, entries, count, width, 0, count);
}

void fill_result(void *entries, size_t count, size_t width)
{
    for (size_t k = 0; k < count; k++) {
        uint32_t entry = (uint32_t)(width == 1 ? 5 * k + 3 : width == 2 ? 7 * k + 13 : 9 * k - 5);
        memcpy((unsigned char *)entries + k * width, &entry, width); /* the low bytes come first, here as in the files */
    }
}

void *lend_result(const char *name, size_t count, size_t width)
{
    struct lent *list = lend(name, RESULT, count, width);
    fill_result(arena + list->at, count, width);
    return place_of(list);
}

static void *lend_single(const char *name, enum kind kind, size_t width)
{
    struct lent *list = lend(name, kind, 1, width);
    for (size_t k = 0; k < width; k++)
        arena[list->at + k] = number_before(k);
    return arena + list->at;
}

void *lend_number(const char *name, size_t width)
{
    return lend_single(name, NUMBER, width);
}

size_t *lend_place(const char *name)
{
    return lend_single(name, PLACE, sizeof(size_t));
}

static int number_holds(const struct lent *list)
{
    for (size_t k = 0; k < list->size; k++)
        if (arena[list->at + k] != number_before(k))
            return 0;
    return 1;
}

static int is_as_before(const struct lent *list, size_t from, size_t until)
{
    return from == until || memcmp(arena + list->at + from, list->before + from, until - from) == 0;
}

const char *what_is_wrong(enum ending ending, const char **name)
{
    *name = "the first list";
    if (!guard_holds(0, GUARD))
        return "was written before its first entry";
    for (size_t i = 0; i < lent_count; i++) {
        const struct lent *list = &lists[i];
        *name = list->name;
        if (!guard_holds(list->at + list->size, guard_end(list)))
            return "was written behind its last entry, or what was lent next before its first";
        if (list->kind == INPUT && !is_as_before(list, 0, list->size))
            return "is an input and was changed";
        if (list->kind == PART && !(is_as_before(list, 0, list->from) && is_as_before(list, list->until, list->size)))
            return "was changed where the call may not write";
        if (list->kind == NUMBER && ending != DONE && !number_holds(list))
            return "was changed by a call that was refused";
        if (list->kind == PLACE && ending != REFUSED_AT && !number_holds(list))
            return "was changed by a call that tells no place";
    }
    return NULL;
}

void spoil_guard(size_t which)
{
    const struct lent *list = &lists[which % lent_count];
    arena[list->at + list->size] ^= 0xFF;
}
