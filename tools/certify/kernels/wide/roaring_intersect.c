#include <stdint.h>
/* intersect_skewed_uint16 and intersect_uint16 of CRoaring, chosen by size */
static int32_t advanceUntil(const uint16_t *array, int32_t pos, int32_t length, uint16_t min)
{
    int32_t lower = pos + 1;
    if ((lower >= length) || (array[lower] >= min)) return lower;
    int32_t spansize = 1;
    while ((lower + spansize < length) && (array[lower + spansize] < min)) spansize <<= 1;
    int32_t upper = (lower + spansize < length) ? lower + spansize : length - 1;
    if (array[upper] == min) return upper;
    if (array[upper] < min) return length;
    lower += (spansize >> 1);
    int32_t mid = 0;
    while (lower + 1 != upper) {
        mid = (lower + upper) >> 1;
        if (array[mid] == min) return mid;
        else if (array[mid] < min) lower = mid;
        else upper = mid;
    }
    return upper;
}
static int32_t intersect_skewed(const uint16_t *small, int32_t size_s, const uint16_t *large, int32_t size_l, uint16_t *buffer)
{
    int32_t pos = 0, idx_l = 0, idx_s = 0;
    if (0 == size_s || 0 == size_l) return 0;
    uint16_t val_l = large[idx_l], val_s = small[idx_s];
    for (;;) {
        if (val_l < val_s) {
            idx_l = advanceUntil(large, idx_l, size_l, val_s);
            if (idx_l == size_l) break;
            val_l = large[idx_l];
        } else if (val_s < val_l) {
            idx_s++;
            if (idx_s == size_s) break;
            val_s = small[idx_s];
        } else {
            buffer[pos++] = val_s;
            idx_s++;
            if (idx_s == size_s) break;
            val_s = small[idx_s];
            idx_l = advanceUntil(large, idx_l, size_l, val_s);
            if (idx_l == size_l) break;
            val_l = large[idx_l];
        }
    }
    return pos;
}
static int32_t intersect(const uint16_t *A, int32_t lenA, const uint16_t *B, int32_t lenB, uint16_t *out)
{
    const uint16_t *initout = out, *endA = A + lenA, *endB = B + lenB;
    if (lenA == 0 || lenB == 0) return 0;
    while (1) {
        while (*A < *B) {
SKIP_FIRST_COMPARE:
            if (++A == endA) return out - initout;
        }
        while (*A > *B)
            if (++B == endB) return out - initout;
        if (*A == *B) {
            *out++ = *A;
            if (++A == endA || ++B == endB) return out - initout;
        } else goto SKIP_FIRST_COMPARE;
    }
}
void KERNEL(const uint16_t *a, int32_t na, const uint16_t *b, int32_t nb, uint16_t *out, int32_t *n)
{
    if (na * 8 < nb) *n = intersect_skewed(a, na, b, nb, out);
    else if (nb * 8 < na) *n = intersect_skewed(b, nb, a, na, out);
    else *n = intersect(a, na, b, nb, out);
}
