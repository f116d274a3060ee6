/* Random curves, written as path data by both sides. */
#ifndef RANDOM_PATHS_H
#define RANDOM_PATHS_H

#include <stdint.h>

/* Whether both sides tell the same of every one of many curves, refused or not, and leave the same behind; 0 too where some outcome never came up. */
int random_paths_agree(uint32_t (*dice)(void));

#endif
