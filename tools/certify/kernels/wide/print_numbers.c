#include <stdint.h>
#include <stddef.h>
/* numbers of a base, with separators, right to left into a local array first */
static char *put(char *p, int32_t v, unsigned base)
{
    char tmp[33];
    int i = 0;
    uint32_t u = v < 0 ? -(uint32_t)v : v;
    do tmp[i++] = "0123456789abcdef"[u % base]; while (u /= base);
    if (v < 0) *p++ = '-';
    while (i > 0) {
        *p++ = tmp[--i];
        if (base == 10 && i && i % 3 == 0) *p++ = '\'';
    }
    return p;
}
void KERNEL(char *out, const int32_t *in, size_t n, unsigned base, uint32_t *size)
{
    char *p = out, *end = out + 8192 - 40;
    for (size_t i = 0; i < n && p < end; i++) {
        p = put(p, in[i], base);
        *p++ = i + 1 < n ? ' ' : '\n';
    }
    *size = p - out;
}
