#include <stdint.h>
#define MIN3(a, b, c) ((a) < (b) ? ((a) < (c) ? (a) : (c)) : ((b) < (c) ? (b) : (c)))
static unsigned distance(const char *s1, unsigned s1len, const char *s2, unsigned s2len, unsigned limit)
{
    unsigned x, y, lastdiag, olddiag, best;
    unsigned column[129];
    for (y = 1; y <= s1len; y++) column[y] = y;
    for (x = 1; x <= s2len; x++) {
        column[0] = x;
        best = x;
        for (y = 1, lastdiag = x - 1; y <= s1len; y++) {
            olddiag = column[y];
            column[y] = MIN3(column[y] + 1, column[y - 1] + 1, lastdiag + (s1[y - 1] == s2[x - 1] ? 0 : 1));
            lastdiag = olddiag;
            if (column[y] < best) best = column[y];
        }
        if (best > limit) return limit + 1;
    }
    return s2len ? column[s1len] : s1len;
}
void KERNEL(const char *a, unsigned la, const char *b, unsigned lb, unsigned limit, uint32_t *d) { *d = distance(a, la, b, lb, limit); }
