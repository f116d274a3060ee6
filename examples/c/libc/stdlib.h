/* What the C programs of this repository use of <stdlib.h>, for the kit's clang, which comes without headers. */
#ifndef KIT_STDLIB_H
#define KIT_STDLIB_H
#include <stddef.h>
void *malloc(size_t size);
void exit(int status) __attribute__((noreturn));
#endif
