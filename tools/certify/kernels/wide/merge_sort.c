#include <stdint.h>
#include <stddef.h>
extern void *memcpy(void *, const void *, size_t);
/* bottom up; what is sorted ends in the first buffer */
static void merge(uint32_t *to, const uint32_t *a, const uint32_t *a_end, const uint32_t *b, const uint32_t *b_end)
{
    while (a != a_end && b != b_end)
        *to++ = *b < *a ? *b++ : *a++;
    while (a != a_end) *to++ = *a++;
    while (b != b_end) *to++ = *b++;
}
void KERNEL(uint32_t *data, uint32_t *scratch, size_t n)
{
    uint32_t *from = data, *to = scratch;
    for (size_t width = 1; width < n; width *= 2) {
        for (size_t i = 0; i < n; i += 2 * width) {
            size_t mid = i + width < n ? i + width : n, end = i + 2 * width < n ? i + 2 * width : n;
            merge(to + i, from + i, from + mid, from + mid, from + end);
        }
        uint32_t *t = from; from = to; to = t;
    }
    if (from != data) memcpy(data, from, n * sizeof *data);
}
