/* A random curve for both sides, broken or not. */
#ifndef RANDOM_CURVE_H
#define RANDOM_CURVE_H

#include <stddef.h>
#include <stdint.h>

#include "tsaghnobir.h"

enum { RANDOM_CURVES = 20000 };

struct random_curve {
    uint32_t degree;
    size_t knots_len, xs_len, ys_len;
    uint16_t knots[2 * TSB_KNOTS_MOST];
    int32_t xs[2 * TSB_POINTS_MOST], ys[2 * TSB_POINTS_MOST];
};

#define RANDOM(c) (c).degree, (c).knots, (c).knots_len, (c).xs, (c).xs_len, (c).ys, (c).ys_len

/* The k-th: one in four is about as long as a curve that can be cut may be. */
void random_curve(struct random_curve *curve, size_t k, uint32_t (*dice)(void));

#endif
