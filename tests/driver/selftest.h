/* Tries the guards of lent.h: 0 where every wrong write is told and no right one is. */
#ifndef SELFTEST_H
#define SELFTEST_H

int selftest(void);

#endif
