#include <stdint.h>
/* Rob Pike's matcher: recursion in three functions; lines of the text that match */
static int matchhere(const char *re, const char *text);
static int matchstar(int c, const char *re, const char *text)
{
    do {
        if (matchhere(re, text)) return 1;
    } while (*text != '\n' && (*text++ == c || c == '.'));
    return 0;
}
static int matchhere(const char *re, const char *text)
{
    if (re[0] == '\0') return 1;
    if (re[1] == '*') return matchstar(re[0], re + 2, text);
    if (re[0] == '$' && re[1] == '\0') return *text == '\n';
    if (*text != '\n' && (re[0] == '.' || re[0] == *text)) return matchhere(re + 1, text + 1);
    return 0;
}
static int match(const char *re, const char *text)
{
    if (re[0] == '^') return matchhere(re + 1, text);
    do {
        if (matchhere(re, text)) return 1;
    } while (*text++ != '\n');
    return 0;
}
void KERNEL(const char *text, uint32_t n, const char *re, uint32_t *lines)
{
    const char *end = text + n;
    uint32_t hits = 0;
    while (end > text && end[-1] != '\n') end--;
    while (text < end) {
        hits += match(re, text);
        while (*text != '\n') text++;
        text++;
    }
    *lines = hits;
}
