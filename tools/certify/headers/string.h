/* The functions of C's <string.h> that runtime.c has, for sources that include it: freestanding compilers bring no such header. */
#ifndef CERTIFY_STRING_H
#define CERTIFY_STRING_H
#include <stddef.h>
void *memcpy(void *restrict to, const void *restrict from, size_t n);
void *memmove(void *to, const void *from, size_t n);
void *memset(void *to, int byte, size_t n);
int memcmp(const void *one, const void *two, size_t n);
void *memchr(const void *in, int byte, size_t n);
size_t strlen(const char *text);
int strcmp(const char *one, const char *two);
int strncmp(const char *one, const char *two, size_t n);
char *strchr(const char *text, int c);
#endif
