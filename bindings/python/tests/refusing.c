/* A malloc that refuses the library's calls, and no other's: each from one number on, as `refuse_from` says, and none where that is -1. */
#define _GNU_SOURCE
#include <dlfcn.h>
#include <stddef.h>
#include <string.h>

void *__libc_malloc(size_t size);
void *__libc_realloc(void *from, size_t size);
static long left = -1;

/* Whether a call comes from the library. */
static int of_the_library(void *caller) {
    Dl_info info;
    return dladdr(caller, &info) && info.dli_fname && strstr(info.dli_fname, "librvvbox");
}

static int refuses(void *caller) {
    if (left < 0 || !of_the_library(caller)) return 0;
    return left == 0 || left-- == 0;
}

void refuse_from(int number) { left = number; }

void *malloc(size_t size) { return refuses(__builtin_return_address(0)) ? NULL : __libc_malloc(size); }

void *realloc(void *from, size_t size) { return refuses(__builtin_return_address(0)) ? NULL : __libc_realloc(from, size); }
