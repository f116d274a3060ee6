/* The calls of include/tsaghnobir.h, each asked by the bytes of a case. */
#ifndef CALLS_H
#define CALLS_H

#include <stddef.h>
#include <stdint.h>

#include "lent.h"

struct outcome {
    enum ending ending;
    const char *wrong; /* what is wrong with the numbers that came back; NULL for nothing */
    int goes_on;       /* whether the case has a further call */
};

/* Whether a refusal of this number tells a place. */
int has_place(uint32_t refusal);

enum ending ending_of(uint32_t refusal);

/* Takes the rest of a case, lends what the call with this number asks for, calls, and puts the answer. A case of several calls is taken call by call,
   `step` counts them from 0. False where no export has the number. */
int call_export(unsigned char number, size_t step, struct outcome *outcome);

#endif
