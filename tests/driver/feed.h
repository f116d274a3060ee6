/* tsb_feed and tsb_feed_end: a case has several calls, each a step. */
#ifndef FEED_H
#define FEED_H

#include <stddef.h>

#include "lent.h"

/* Takes the next step of a case, calls, and puts its answer; with step 0 also takes what comes before the steps, and with the last one puts the
   fingerprint of the work list. Whether there is a further step; how the call ended goes to *ending. */
int feed_step(size_t step, enum ending *ending);

#endif
