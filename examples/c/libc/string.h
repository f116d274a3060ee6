/* What the C programs of this repository use of <string.h>, for the kit's clang, which comes without headers. */
#ifndef KIT_STRING_H
#define KIT_STRING_H
#include <stddef.h>
int memcmp(const void *a, const void *b, size_t count);
int strcmp(const char *a, const char *b);
void *memcpy(void *restrict to, const void *restrict from, size_t count);
void *memmove(void *to, const void *from, size_t count);
void *memset(void *to, int byte, size_t count);
#endif
