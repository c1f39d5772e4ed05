/* What freestanding code may want of C's <stdlib.h>. */
#ifndef CERTIFY_STDLIB_H
#define CERTIFY_STDLIB_H
#include <stddef.h>
static inline int abs(int x) { return x < 0 ? -x : x; }
static inline long labs(long x) { return x < 0 ? -x : x; }
#endif
