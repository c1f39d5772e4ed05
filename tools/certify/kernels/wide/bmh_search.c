#include <stddef.h>
#include <stdint.h>
extern int memcmp(const void *, const void *, size_t);
/* Boyer, Moore and Horspool; every place of the needle */
void KERNEL(const uint8_t *haystack, size_t hlen, const uint8_t *needle, size_t nlen, uint32_t *found, uint32_t *count)
{
    size_t bad_char_skip[256], last = nlen - 1, k = 0;
    const uint8_t *start = haystack;
    for (size_t scan = 0; scan <= 255; scan++)
        bad_char_skip[scan] = nlen;
    for (size_t scan = 0; scan < last; scan++)
        bad_char_skip[needle[scan]] = last - scan;
    while (hlen >= nlen) {
        if (haystack[last] == needle[last] && memcmp(haystack, needle, last) == 0 && k < 1024)
            found[k++] = haystack - start;
        size_t skip = bad_char_skip[haystack[last]];
        hlen -= skip;
        haystack += skip;
        if ((ptrdiff_t)hlen < 0) break;
    }
    *count = k;
}
