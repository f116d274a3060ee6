/*
 * Runs cases through the exports of the library:
 *
 *   driver first|second    reads the cases on standard input, writes their answers to standard output and tells faults on standard error;
 *                          first and second are two ways to fill the guards round every list
 *   driver spoiled         the same, but after each call a byte behind one of its lists is spoiled: every call must be told
 *   driver selftest        tries the guards themselves
 *
 * Cases and answers stand as tests/second_program/vectors.py says; faults are told by the number of the case, from 1 on. Exit status: 0 all
 * well, 1 faults, 2 the cases cannot be read or run.
 */
#include <stddef.h>
#include <stdint.h>
#include <stdio.h>
#include <string.h>

#include "bytes.h"
#include "calls.h"
#include "lent.h"
#include "selftest.h"

#define MOST_CASE (4u << 20)

static unsigned char body[MOST_CASE];
static unsigned long case_number;
static int faults;

static void tell(const char *name, const char *what)
{
    fprintf(stderr, "case %lu: %s %s\n", case_number, name, what);
    faults = 1;
}

/* Tells what is wrong after a call. */
static void judge(const struct outcome *outcome)
{
    const char *name, *what = what_is_wrong(outcome->ending, &name);
    if (what != NULL)
        tell(name, what);
    if (outcome->wrong != NULL)
        tell("the answer:", outcome->wrong);
}

/* Runs the case in the first bytes of `body`, a call or several. */
static int run_case(size_t length, enum filling filling, int spoiled)
{
    struct outcome outcome;
    size_t step = 0;
    begin_case(body, length);
    begin_answer();
    unsigned char number = take_byte();
    do {
        begin_lending(filling);
        if (!call_export(number, step, &outcome)) {
            tell("there is", "no export of this number");
            return 0;
        }
        if (!outcome.goes_on && !case_is_whole()) {
            tell("the case", "has too few or too many bytes");
            return 0;
        }
        if (spoiled)
            spoil_guard(case_number + step);
        judge(&outcome);
        step++;
    } while (outcome.goes_on);
    return 1;
}

/* Every answer leaves at once, so that a call that never comes back can be told by the number of answers. */
static int write_answer(void)
{
    size_t length;
    const unsigned char *answer = answer_so_far(&length);
    return fwrite(answer, 1, length, stdout) == length && fflush(stdout) == 0;
}

static int run_cases(enum filling filling, int spoiled)
{
    unsigned char head[4];
    size_t got;
    while ((got = fread(head, 1, sizeof head, stdin)) == sizeof head) {
        case_number++;
        begin_case(head, sizeof head);
        size_t length = take_number();
        if (length > MOST_CASE || fread(body, 1, length, stdin) != length) {
            tell("the case", "is cut short or too long");
            return 2;
        }
        if (!run_case(length, filling, spoiled) || !write_answer())
            return 2;
    }
    if (got != 0) {
        tell("behind it", "the cases are cut short");
        return 2;
    }
    return faults;
}

int main(int argc, char **argv)
{
    const char *word = argc == 2 ? argv[1] : "";
    if (strcmp(word, "first") == 0)
        return run_cases(FIRST, 0);
    if (strcmp(word, "second") == 0)
        return run_cases(SECOND, 0);
    if (strcmp(word, "spoiled") == 0)
        return run_cases(FIRST, 1);
    if (strcmp(word, "selftest") == 0)
        return selftest();
    fprintf(stderr, "driver first|second|spoiled|selftest\n");
    return 2;
}
