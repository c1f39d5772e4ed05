#include <stdint.h>
/* one star kept to come back to; names by lines */
static int glob(const char *pattern, const char *s, const char *end)
{
    const char *star = 0, *retry = 0;
    while (s < end) {
        if (*pattern == '*') {
            star = ++pattern;
            retry = s;
            continue;
        }
        if (*pattern == '[') {
            const char *p = pattern + 1;
            int negate = *p == '!', ok = 0;
            if (negate) p++;
            while (*p && *p != ']') {
                if (p[1] == '-' && p[2] && p[2] != ']') {
                    if (*s >= p[0] && *s <= p[2]) ok = 1;
                    p += 3;
                } else if (*p++ == *s) ok = 1;
            }
            if (ok != negate && *p) {
                pattern = p + 1;
                s++;
                continue;
            }
        } else if (*pattern == '?' || (*pattern && *pattern == *s)) {
            pattern++;
            s++;
            continue;
        }
        if (!star) return 0;
        pattern = star;
        s = ++retry;
    }
    while (*pattern == '*') pattern++;
    return *pattern == 0;
}
void KERNEL(const char *names, uint32_t n, const char *pattern, uint32_t *count)
{
    const char *end = names + n;
    uint32_t k = 0;
    while (names < end) {
        const char *e = names;
        while (e < end && *e != '\n') e++;
        k += glob(pattern, names, e);
        names = e + 1;
    }
    *count = k;
}
