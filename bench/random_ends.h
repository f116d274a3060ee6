/* Random curves, clamped and unclamped by both sides. */
#ifndef RANDOM_ENDS_H
#define RANDOM_ENDS_H

#include <stdint.h>

/* Whether both sides tell the same of every one of many curves, refused or not, and leave the same behind; 0 too where some outcome never came up. */
int random_ends_agree(uint32_t (*dice)(void));

#endif
